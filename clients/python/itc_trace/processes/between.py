"""Tasks of several processes that wait for each other.

Each process whose tasks wait for long for what another one holds writes that to a file: what they wait for, and what
they hold. The program's own process reads all of them, and looks for a cycle.

No look sees all processes at once. So each file tells from when on and until when it holds. A task that waits for a
lock goes on waiting until its process acquires that lock, which is counted. If what is told of all processes of a cycle
holds at one time, all of its tasks wait then, and each holds what another one waits for.
"""

from __future__ import annotations

import contextlib
import glob
import json
import os
import time
from collections.abc import Iterable, Iterator
from dataclasses import asdict, dataclass, field
from types import CodeType
from typing import Any

from ..model.file_names import name_of_file
from ..model.frames import line_of
from ..model.lines import Line
from ..model.lock_identity import LockIdentity
from .waits import WAITS, Wait, name_of, place_text

FILES = ".waits."
"""Behind the name of the file by which somebody asks, and before the number of the process."""
RECENT = 1.0
"""In seconds. A process that has not told for so long is no more."""
Three = tuple[str | None, int, str]
"""A file, a line and a function."""


@dataclass
class Holding:
    """A lock that processes share, and that a task holds."""

    name: str
    at: Three
    place: str


@dataclass
class Waiting:
    """A task that waits without a limit."""

    task: str
    told: str
    """What it waits for, in words for a person."""
    wants: str
    """The name of what it waits for."""
    at: Three
    on: str | None = None
    """The task that holds that, if it is one of the same process, or whose end it is."""
    held: Three = (None, 0, "")
    """Where that one has acquired it."""
    place: str = ""
    """The same, in words for a person."""
    across: str = ""
    """What processes know the lock by that it waits for, if they share it."""
    holds: dict[str, Holding] = field(default_factory=dict)


@dataclass
class Told:
    """What tasks of one process wait for."""

    begin: float
    until: float
    signals: list[str]
    """The locks that were released by somebody who had not acquired them."""
    waits: list[Waiting]

    @staticmethod
    def read(text: str) -> Told:
        begin, until, signals, waits = json.loads(text)
        return Told(begin, until, signals, [_waiting(one) for one in waits])


def _waiting(told: dict[str, Any]) -> Waiting:
    holds = {across: Holding(**held) for across, held in told.pop("holds").items()}
    return Waiting(**told, holds=holds)


class Own:
    """What the tasks of this process wait for, as others are told."""

    def __init__(self) -> None:
        self.told: Told | None = None
        self._counted: dict[LockIdentity, int] = {}

    def look_at(self, found: Iterable[Wait]) -> None:
        """They were just looked at. Nothing is told if none of them waits for another process."""
        now, shared, self._counted = time.monotonic(), False, {}
        signals: set[str] = set()
        waits = []
        for one in found:
            if one.line is None or not one.lasts:
                continue
            lock = one.lock
            if lock is not None and lock.across:
                self._counted[lock] = lock.times
                signals |= {lock.across} if lock.signal is not None else set()
            shared = shared or lock is not None and bool(lock.across) or bool(one.process)
            waits.append(_of(one, one.line, now))
            signals |= {held.across for held in one.line.held if held.across and held.signal is not None}
        self.told = Told(now, now, sorted(signals), waits) if shared else None

    def go_on(self) -> bool:
        """Whether all of it holds still, as far as this process has acquired none of the locks since."""
        if self.told is None or any(lock.times != times for lock, times in self._counted.items()):
            self.told = None
            return False
        self.told.until = time.monotonic()
        return True

    def write(self, asked: str) -> None:
        """Tells the other processes, or no longer."""
        file = f"{asked}{FILES}{os.getpid()}"
        if not self.go_on() or self.told is None:
            with contextlib.suppress(FileNotFoundError):
                os.unlink(file)
            return
        told = self.told
        text = json.dumps([told.begin, told.until, told.signals, [asdict(one) for one in told.waits]])
        with open(f"{file}.new", "w", encoding="utf-8") as new:
            new.write(text)
        os.replace(f"{file}.new", file)


def _of(wait: Wait, line: Line, now: float) -> Waiting:
    made = Waiting(
        wait.task, next(wait.told(now)), wait.what.removeprefix(WAITS) if wait.lock is None else wait.lock.name,
        three(*wait.at), wait.process or None if wait.on is None else name_of(wait.on),
    )
    lock = wait.lock
    if lock is not None and lock.across:
        made.across, made.on = lock.across, None
    elif lock is not None:
        made.held, made.place = three(lock.taken_by, lock.taken_at), wait.held
    for one in line.held:
        if one.across:
            made.holds[one.across] = Holding(
                one.name, three(one.taken_by, one.taken_at), place_text(one.taken_by, one.taken_at),
            )
    return made


def three(code: CodeType | None, instruction: int) -> Three:
    if code is None:
        return None, 0, ""
    return name_of_file(code.co_filename), line_of(code, instruction), code.co_qualname


def told_by_all(asked: str) -> list[Told]:
    """What processes tell now."""
    found = []
    for file in sorted(glob.glob(f"{glob.escape(asked)}{FILES}*[0-9]")):
        with contextlib.suppress(OSError, ValueError), open(file, encoding="utf-8") as told:
            found.append(Told.read(told.read()))
    return found


def find_holders(found: Iterable[Wait], asked: str) -> None:
    """Adds who of another process holds what these wait for, if that one waits, too."""
    recent = time.monotonic() - RECENT
    told = [one for one in told_by_all(asked) if one.until > recent]
    for wait in found:
        if wait.lock is not None and wait.lock.across and wait.on is None:
            for task, held in _holding(told, wait.lock.across):
                wait.elsewhere = f"{task} of another process holds it, acquired at {held.place}"


def _holding(all_told: Iterable[Told], across: str) -> list[tuple[str, Holding]]:
    """The tasks that hold this lock."""
    return [(one.task, one.holds[across]) for told in all_told for one in told.waits if across in one.holds]


def cycle_between(all_told: list[Told]) -> list[Waiting]:
    """Tasks of several processes of which each waits for the next one, and the last one for the first.

    A lock that two tasks seem to hold, or that somebody else released, is passed over.
    """
    signals = {one for told in all_told for one in told.signals}
    by_task = {one.task: (told, one) for told in all_told for one in told.waits}

    def following(one: Waiting) -> str | None:
        if not one.across:
            return one.on
        holding = [] if one.across in signals else _holding(all_told, one.across)
        return holding[0][0] if len(holding) == 1 else None

    for begin in by_task:
        path: list[str] = []
        task: str | None = begin
        while task is not None and task in by_task and task not in path:
            path.append(task)
            task = following(by_task[task][1])
        if task is not None and task in path:
            cycle = [by_task[one] for one in path[path.index(task):]]
            processes = [told for told, _ in cycle]
            if len(set(map(id, processes))) > 1 and _are_at_once(processes):
                return [one for _, one in cycle]
    return []


def _are_at_once(processes: list[Told]) -> bool:
    return max(one.begin for one in processes) <= min(one.until for one in processes)


def lines_of_cycle(cycle: list[Waiting]) -> Iterator[str]:
    """What all of them wait for, in words for a person."""
    following = [*cycle[1:], cycle[0]]
    yield f"tasks of several processes wait for each other, {len(cycle)} tasks:"
    for one, other in zip(cycle, following):
        yield f"    {one.told}"
        held = other.holds[one.across].place if one.across else one.place
        if held:
            yield f"        {other.task} holds it, acquired at {held}"
    steps = [f"{one.task} waits for {other.task}" for one, other in zip(cycle, following)]
    yield f"    a cycle: {', '.join(steps)}"


def row_of_cycle(cycle: list[Waiting]) -> str:
    """The line of a journal that tells of them."""
    steps = []
    for one, before in zip(cycle, [cycle[-1], *cycle[:-1]]):
        if before.across:
            held = one.holds[before.across]
            holds, held_at = held.name, held.at
        else:
            holds, held_at = before.wants, before.held
        steps.append({
            "task": one.task, "holds": holds, "held_at": held_at, "wants": one.wants, "wanted_at": one.at,
        })
    return json.dumps({"deadlock": steps}, separators=(",", ":")) + "\n"


def key_of_cycle(cycle: list[Waiting]) -> frozenset[tuple[str, str]]:
    return frozenset((one.task, one.wants) for one in cycle)
