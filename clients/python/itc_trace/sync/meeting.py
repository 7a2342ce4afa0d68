"""Has tasks meet where they may race: one that comes to a line of a pair is held there, for a bounded time, until
another one comes to the other line. It may be one of another process. A task that holds a lock there would keep the
other one from coming. So it is held before it acquires the lock, until the other one stands where it is to meet.

So races are looked for by direction, as in RaceFuzzer (Sen 2008). Whether two that met do race is decided as ever, by
the trace of that run. So a meeting that was none, as one at two objects, tells of nothing.
"""

from __future__ import annotations

import os
from collections import defaultdict
from functools import cached_property
from time import monotonic, sleep
from types import CodeType
from typing import Any, NamedTuple

from ..model.digests import number_of
from ..model.file_names import name_of_file
from ..model.frames import line_of
from ..model.handed_over import OF_SHARED, Plan
from ..model.lines import state
from ..record import following
from ..record.noting import AT_SHARED_THING
from ..record.standing import Board, OwnTexts, Standing, who_is_here
from .base import like
from .locks import TracedLock, TracedRLock, walk_always
from .shared_locks import AT_ACQUIRING

HOLD = 1.0
"""So many seconds a task is held at most."""
PAUSE = 0.002
MOST_HOLDS = 4
"""So often tasks are held in vain at one line."""
MOST_SECONDS = 20.0
"""So many seconds all tasks of a run are held in vain."""


class Touching(NamedTuple):
    """What a task is about to touch: an object by where it stands in memory, and a key of it, if both are known.

    A thing that processes share is known by its name.
    """

    owner: int | str | None = None
    key: Any = None

    @property
    def known_owner(self) -> str:
        """What tells it from what others touch, in all processes."""
        if self.owner is None:
            return ""
        return f"{os.getpid()}.{self.owner}" if isinstance(self.owner, int) else f"{number_of(self.owner):x}"

    @property
    def known_key(self) -> str:
        return f"{number_of(repr(self.key)):x}" if type(self.key) in (str, int) else ""


class Meeting:
    """Holds tasks at the lines of a plan."""

    def __init__(self, plan: Plan) -> None:
        self._is_exact = plan.is_exact
        self._holding = frozenset(plan.held)
        self._others: dict[str, set[str]] = defaultdict(set)
        for one, other in plan.pairs:
            self._others[one].add(other)
            self._others[other].add(one)
        self._numbers = {place: number for number, place in enumerate(sorted(self._others))}
        """What processes know the places by."""
        self._gates: dict[str, set[str]] = defaultdict(set)
        for lock, place in plan.gates:
            self._gates[lock].add(place)
        self._gate_numbers = {lock: number for number, lock in enumerate(sorted(self._gates))}

    @cached_property
    def _board(self) -> Board:
        return Board(following.shared_names() or OwnTexts())

    @property
    def places(self) -> frozenset[str]:
        """The lines at which hooks may hold tasks."""
        return frozenset(place for place in self._others if not place.startswith(OF_SHARED))

    def begin(self) -> None:
        """From here on tasks are held where they touch what processes share, and before the locks of the plan."""
        if len(self.places) < len(self._others):
            AT_SHARED_THING.append(self._arrive_at_shared)
        if self._gates:
            AT_ACQUIRING.append(self.come_to_lock)
            walk_always()
            for kind in (TracedLock, TracedRLock):
                for name in ("acquire", "__enter__"):
                    original = vars(kind)[name]
                    setattr(kind, name, like(original, self._before_lock(original)))

    def _before_lock(self, original: Any) -> Any:
        def holding(lock: Any, *words: Any, **named: Any) -> Any:
            if state.note is not None:
                self.come_to_lock(lock._itc_identity.name)
            return original(lock, *words, **named)

        return holding

    def come_to_lock(self, lock: str) -> None:
        """The current task is about to acquire the lock of this name."""
        places = self._gates.get(lock)
        if places is None:
            return
        board, gate, of_lock = self._board, self._gate_numbers[lock], f"gate {self._gate_numbers[lock]}"
        numbers = {self._numbers[place] for place in places if place in self._numbers}
        begun = monotonic()
        with board.alone():  # Others pass while a task is held there.
            if board.is_held_at(gate) or not self._may_hold(of_lock) or self._stands_at(numbers):
                return
            board.add(of_lock, 1)
            board.hold_at(gate, begun + HOLD)
        while not self._stands_at(numbers) and monotonic() < begun + HOLD:
            sleep(PAUSE)
        with board.alone():
            board.hold_at(gate, 0)
            board.add_seconds(monotonic() - begun)

    def _stands_at(self, places: set[int]) -> bool:
        return any(one.place in places and not one.has_met for _, one in self._board.standing())

    def _arrive_at_shared(self, thing: str, code: CodeType | None, instruction: int) -> None:
        if code is not None:
            place = f"{OF_SHARED}{name_of_file(code.co_filename)}:{line_of(code, instruction)}"
            self.arrive(place, Touching(str(thing)))

    def arrive(self, place: str, touching: Touching) -> None:
        """The current task is about to touch something at this line."""
        if state.note is None or place not in self._others:
            return
        board, begun = self._board, monotonic()
        mine = Standing(
            who_is_here(), self._numbers[place], begun + HOLD, touching.known_owner, touching.known_key,
        )
        with board.alone():
            met = next(((slot, one) for slot, one in board.standing() if self._meet(one, mine, place)), None)
            if met is not None:
                board.meet(*met)
                return
            slot = board.stand(mine) if place in self._holding and self._may_hold(self._held_at(mine)) else None
            if slot is None:
                return
            board.add(self._held_at(mine), 1)
        while not board.has_met(slot) and monotonic() < mine.until:
            sleep(PAUSE)
        with board.alone():
            if board.has_met(slot):
                board.add(self._held_at(mine), -1)
            else:
                board.add_seconds(monotonic() - begun)
            board.leave(slot)

    def _held_at(self, one: Standing) -> str:
        return f"held {one.place}"

    def _may_hold(self, where: str) -> bool:
        return self._board.count(where) < MOST_HOLDS and self._board.seconds < MOST_SECONDS

    def _meet(self, one: Standing, mine: Standing, place: str) -> bool:
        return (
            not one.has_met and one.who != mine.who
            and any(self._numbers[other] == one.place for other in self._others[place])
            and (not self._is_exact or one.may_be(mine))
        )
