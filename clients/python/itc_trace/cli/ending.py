"""The process of the program that is traced, and the signals that end it before its own end."""

from __future__ import annotations

import contextlib
import os
import signal
import subprocess
import threading
import time
from collections.abc import Iterator
from pathlib import Path
from types import FrameType

from ..record.own_threads import start_thread
from .asking import Asking
from .descendants import descendants, end_all
from .sentinel import Sentinel

LOOK_AGAIN = 0.02
LOOK_FOR_SIGNALS = 0.2
"""In seconds. A signal that comes just before a wait is heeded so much later."""
BEGINNING_SECONDS = 60.0
"""So long it takes at most until the program begins, from when on its time counts."""
GRACE_SECONDS = 5.0
"""So long a program that is ended after its time has to report what was noted."""
SIGNALS = [getattr(signal, name) for name in ("SIGTERM", "SIGHUP") if hasattr(signal, name)]

_asked: list[int] = []
"""The signals to end that have come."""


class Ended(Exception):
    """This process is to end, while no program runs."""


@contextlib.contextmanager
def ends_by_signals() -> Iterator[None]:
    """Within the block the first signal to end raises `Ended`, unless a program runs, which is ended."""
    _asked.clear()
    before = {
        number: signal.signal(number, _end_here) for number in SIGNALS if signal.getsignal(number) == signal.SIG_DFL
    }
    try:
        yield
    finally:
        for number, handler in before.items():
            signal.signal(number, handler)


def is_asked_to_end() -> bool:
    return bool(_asked)


def _end_here(number: int, _: FrameType | None) -> None:
    _asked.append(number)
    if len(_asked) == 1:
        raise Ended(f"this run was ended by {name_of(number)}")


def name_of(number: int) -> str:
    try:
        return signal.Signals(number).name
    except ValueError:
        return f"signal {number}"


class Child:
    """The process of a program that is run to its end. A signal to end this process is handed on to that one, which
    takes its own time.

    One that was sent to the whole group is not: the program has it already.
    """

    def __init__(
        self, words: list[str], environment: dict[str, str], told: str, asked: str, timeout: float | None = None,
    ) -> None:
        """With a limit of seconds it is asked then what it waits for, and ended."""
        self._told = Path(told)
        self._asking = Asking(asked)
        self.is_timed_out = False
        self._process: subprocess.Popen[bytes] | None = None
        self._sentinel = Sentinel()
        before = {
            number: signal.signal(number, self._end) for number in SIGNALS if signal.getsignal(number) == _end_here
        }
        quitting = getattr(signal, "SIGQUIT", None)
        if quitting is not None and signal.getsignal(quitting) == signal.SIG_DFL:
            before[quitting] = signal.signal(quitting, self._ask)
        self._process = subprocess.Popen(words, env=environment)
        # The program is told of it too, and decides.
        before[signal.SIGINT] = signal.signal(signal.SIGINT, signal.SIG_IGN)
        try:
            if _asked:
                self._end(_asked[-1], None)
            status = self._wait(self._process, timeout)
        finally:
            for number, handler in before.items():
                signal.signal(number, handler)
            self._sentinel.close()
        self.signal_name = name_of(-status) if status < 0 else ""
        self.status = status if status >= 0 else 128 - status

    def _wait(self, process: subprocess.Popen[bytes], timeout: float | None) -> int:
        if timeout is None:
            return _status_of(process)
        begun = time.monotonic()
        while not self._asking.has_begun and time.monotonic() - begun < BEGINNING_SECONDS:
            with contextlib.suppress(subprocess.TimeoutExpired):
                return process.wait(LOOK_AGAIN)
        try:
            return process.wait(timeout)
        except subprocess.TimeoutExpired:
            self.is_timed_out = True
        self._asking.ask(process.pid)
        below = descendants(process.pid)  # Whose parent is over has another one.
        process.terminate()
        try:
            status = process.wait(GRACE_SECONDS)
        except subprocess.TimeoutExpired:
            process.kill()
            status = process.wait()
        end_all(below, GRACE_SECONDS)
        return status

    def _ask(self, number: int, _: FrameType | None) -> None:
        """Hands on that somebody asks what the program waits for, unless it was asked itself."""
        process = self._process
        if process is None:
            return
        is_of_group = self._sentinel.has(number)
        if is_of_group:
            self._sentinel.close()
            self._sentinel = Sentinel()
        self._asking.ask_beside(process.pid, not is_of_group)

    def _end(self, number: int, frame: FrameType | None) -> None:
        if frame is not None:
            _asked.append(number)
        if self._process is None:
            return
        if frame is not None and self._sentinel.has(number):
            self._sentinel.close()
            self._sentinel = Sentinel()  # For the next signal.
            return
        with contextlib.suppress(ProcessLookupError):
            os.kill(self._process.pid, number)

    @property
    def told(self) -> str:
        """How the program's process said that it was not run to its end, if it did."""
        try:
            return self._told.read_text(encoding="ascii")
        except OSError:
            return ""


def _status_of(process: subprocess.Popen[bytes]) -> int:
    """Waits for the end of a process. Handlers of signals are called meanwhile."""
    ended = threading.Event()

    def wait() -> None:
        process.wait()
        ended.set()

    start_thread(wait)
    while not ended.wait(LOOK_FOR_SIGNALS):
        pass
    return process.wait()
