"""Asks the program's process what its tasks wait for, and tells if it cannot answer."""

from __future__ import annotations

import contextlib
import os
import re
import signal
import threading
import time

from ..model.handed_over import CHILDREN, TOLD
from .saying import say

ANSWER_SECONDS = 0.7
CHILD_SECONDS = 0.3
"""So long child processes take to answer beside the program's own one."""
HANDLER_SECONDS = 0.2
"""So long the handler in C of the process takes at most."""
LINE = re.compile(r'^  File "(.*)", line (\d+) in (.*)$', re.MULTILINE)


class Asking:
    """The file by which the process is asked, and that of its answers."""

    def __init__(self, asked: str) -> None:
        self.asked = asked
        self._lock = threading.Lock()
        for file in (asked, asked + TOLD):
            with open(file, "wb"):
                pass

    def ask(self, process: int, adds: bool = True) -> None:
        """Waits for the answer. If there is none, it tells what the process was doing as a signal came to it."""
        with self._lock:
            if not self.has_begun:
                say("itc_trace: the program has not begun yet")
                return
            before = self._answers()
            if adds:
                with open(self.asked, "ab") as file:
                    file.write(b"asked\n")
            end = time.monotonic() + ANSWER_SECONDS
            while self._answers() == before:
                if time.monotonic() > end:
                    self._tell_of_silence(process)
                    return
                time.sleep(0.02)
            if os.path.exists(self.asked + CHILDREN):
                time.sleep(CHILD_SECONDS)

    def ask_beside(self, process: int, adds: bool) -> None:
        """The same, and goes on at once."""
        threading.Thread(target=self.ask, args=(process, adds), daemon=True).start()

    @property
    def has_begun(self) -> bool:
        """Whether the program runs, and can be asked."""
        return self._answers() > 0

    def _answers(self) -> int:
        with contextlib.suppress(OSError):
            return os.stat(self.asked + TOLD).st_size
        return 0

    def _tell_of_silence(self, process: int) -> None:
        if not hasattr(signal, "SIGQUIT"):
            return
        before = os.stat(self.asked).st_size
        with contextlib.suppress(ProcessLookupError):
            os.kill(process, signal.SIGQUIT)
        time.sleep(HANDLER_SECONDS)
        with open(self.asked, encoding="utf-8", errors="replace") as file:
            file.seek(before)
            found = LINE.search(file.read())
        where = f", called at {found[1]}:{found[2]} in {found[3]}" if found is not None else ""
        say(f"itc_trace: the program does not answer: code of C keeps all its threads from going on{where}")
