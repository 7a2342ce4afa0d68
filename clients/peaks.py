"""Looks again and again at the processes of a system, and at what memory each has had at most, as the kernel tells it."""

from __future__ import annotations

import os
import re
import sys
import threading
from enum import Enum
from pathlib import Path

sys.path.insert(0, str(Path(__file__).resolve().parent / "python"))
from itc_trace.cli.descendants import Descendant, descendants

PAUSE = 0.1
LEAST = 10_000
"""So many kilobytes a process has that does more than to start another one."""


class Kind(Enum):
    PROGRAM = "program"
    COLLECTOR = "collector"
    COMMAND = "command"


class Peaks:
    """The most memory that each process of a system has had, while this is entered."""

    def __init__(self, described: Path) -> None:
        """The file that describes the system. The command line of no other process names it."""
        self._described = str(described)
        self._kilobytes: dict[Descendant, int] = {}
        self._kinds: dict[Descendant, Kind] = {}
        self._is_over = threading.Event()
        self._looking = threading.Thread(target=self._look)

    def __enter__(self) -> Peaks:
        self._looking.start()
        return self

    def __exit__(self, *_: object) -> None:
        self._is_over.set()
        self._looking.join()

    def of(self, kind: Kind) -> list[int]:
        """The kilobytes of each process of this kind, the one that began first at the beginning."""
        return [most for one, most in self._kilobytes.items() if self._kinds[one] is kind and most > LEAST]

    def _look(self) -> None:
        while not self._is_over.wait(PAUSE):
            for command in descendants(os.getpid()):
                if self._described in _words(command):
                    for one in (command, *descendants(command.number)):
                        self._note(one)

    def _note(self, process: Descendant) -> None:
        try:
            peak = re.search(r"^VmHWM:\s+(\d+)", Path(f"/proc/{process.number}/status").read_text(), re.M)
        except OSError:
            return
        words = _words(process)
        if peak and words:
            self._kinds[process] = self._kind_of(words)
            self._kilobytes[process] = max(self._kilobytes.get(process, 0), int(peak[1]))

    def _kind_of(self, words: list[str]) -> Kind:
        if "serve" in words:
            return Kind.COLLECTOR
        return Kind.COMMAND if self._described in words else Kind.PROGRAM


def _words(process: Descendant) -> list[str]:
    """The command line of a process. Nothing if it is over."""
    try:
        return Path(f"/proc/{process.number}/cmdline").read_text().split("\0")
    except OSError:
        return []
