"""What a program leaves at its end: locks that nobody releases, threads that nobody joins, and results nobody takes."""

from __future__ import annotations

import threading
from collections.abc import Iterator
from enum import Enum
from types import CodeType, FrameType
from typing import Any

from ..model.file_names import name_of_file
from ..model.frames import is_internal, line_of, place
from ..model.lines import Line
from ..model.verdict import Left
from ..record import plain
from ..record.noting import thread_name

MOST_ENDED = 1000
"""So many tasks are looked at that have ended with a lock held."""


class Outcome(Enum):
    """What somebody is to take, in words."""

    TASK = "{} that nobody awaits, started"
    FUTURE = "{} whose result nobody takes, submitted"

    def told(self, count: int) -> str:
        noun = self.name.lower()
        return self.value.format(f"a {noun}" if count == 1 else f"{count} {noun}s")


Key = tuple[Outcome, CodeType | None, int]
_guard = plain.allocate_lock()
_open: dict[Key, int] = {}
"""How many of these, begun at this place, nobody has taken yet."""
_ended: list[Line] = []
"""The tasks that have ended with a lock held."""


def begun(one: Any, kind: Outcome, frame: FrameType | None) -> None:
    """Somebody is to take the result of this one, which was begun here."""
    key = one._itc_left = (kind, *place(frame))
    with _guard:
        _open[key] = _open.get(key, 0) + 1


def taken(one: Any) -> None:
    """Somebody waits for its result, takes it, or is told of it."""
    key = getattr(one, "_itc_left", None)
    if key is not None:
        one._itc_left = None
        with _guard:
            _open[key] -= 1


def stays(one: Any) -> None:
    """Whoever takes its result from here on does so as all ends."""
    one._itc_left = None


def started(thread: threading.Thread, frame: FrameType | None) -> None:
    """The thread is started here. One that the library starts is its own."""
    if not is_internal(frame):
        thread.__dict__["_itc_started"] = place(frame)


def ended(line: Line) -> None:
    """The task does nothing more."""
    if line.held and len(_ended) < MOST_ENDED:
        _ended.append(line)


def threads() -> Iterator[Left]:
    """Those for which only the end of the program waits, as the main thread has ended."""
    for thread in threading.enumerate():
        where = thread.__dict__.get("_itc_started")
        line = thread.__dict__.get("_itc_line")
        if where is not None and line is not None and not thread.daemon and not line.waiting:
            name = thread_name(thread).removesuffix("#")  # Its number may not be known yet.
            called = "a thread" if name == "thread" else f"thread {name}"
            yield Left(f"{called} that nobody joins, started", _told(*where))


def locks_and_results(main: Line) -> Iterator[Left]:
    """The others, as the program ends. A lock that several processes share may be released by another one."""
    for lock in dict.fromkeys(lock for line in (*_ended, main) for lock in line.held):
        if lock.signal is None and not lock.across and not lock.kind.endswith("Semaphore"):
            yield Left(f"{lock.name} that is never released, acquired", _told(lock.taken_by, lock.taken_at))
    for (kind, code, instruction), count in list(_open.items()):
        if count:
            yield Left(kind.told(count), _told(code, instruction))


def _told(code: CodeType | None, instruction: int) -> str:
    return "?" if code is None else f"{name_of_file(code.co_filename)}:{line_of(code, instruction)}"
