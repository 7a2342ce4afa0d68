"""The processes that a process has started, and those that these have started, as the system lists them."""

from __future__ import annotations

import contextlib
import os
import signal
import time
from collections import defaultdict
from typing import NamedTuple

FOLDER = "/proc"
LOOK_AGAIN = 0.02
KILLED_SECONDS = 1.0
"""So long it takes at most until one that is killed is over."""
PARENT, BEGUN = 1, 19
"""Which of the words behind the name of a process tell who has started it, and when."""


class Descendant(NamedTuple):
    """A process, by its number and the time when it began: another one may have the number once it is over."""

    number: int
    begun: str

    @property
    def is_there(self) -> bool:
        words = _words(self.number)
        return len(words) > BEGUN and words[BEGUN] == self.begun and words[0] != "Z"

    def end(self, number: int) -> None:
        if self.is_there:
            with contextlib.suppress(OSError):
                os.kill(self.number, number)


def descendants(process: int) -> list[Descendant]:
    """There are none where the system does not list them."""
    try:
        numbers = [int(name) for name in os.listdir(FOLDER) if name.isdigit()]
    except OSError:
        return []
    by_parent: defaultdict[str, list[Descendant]] = defaultdict(list)
    for number in numbers:
        words = _words(number)
        if len(words) > BEGUN:
            by_parent[words[PARENT]].append(Descendant(number, words[BEGUN]))
    found: list[Descendant] = []
    waiting = [str(process)]
    while waiting:
        below = by_parent.pop(waiting.pop(), [])
        found += below
        waiting += [str(one.number) for one in below]
    return found


def end_all(processes: list[Descendant], seconds: float) -> None:
    """Has them end within so many seconds. Who is there still then is killed."""
    for number, patience in ((signal.SIGTERM, seconds), (signal.SIGKILL, KILLED_SECONDS)):
        for one in processes:
            one.end(number)
        end = time.monotonic() + patience
        while any(one.is_there for one in processes) and time.monotonic() < end:
            time.sleep(LOOK_AGAIN)


def _words(process: int) -> list[str]:
    """What the system tells of a process behind its name, which may have any letters. Nothing if it is over."""
    try:
        with open(f"{FOLDER}/{process}/stat", encoding="utf-8", errors="replace") as told:
            return told.read().rpartition(")")[2].split()
    except OSError:
        return []
