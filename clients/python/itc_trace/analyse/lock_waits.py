"""What a task waits for while it holds locks: acquisitions at the same lines with the same locks are one pattern."""

from __future__ import annotations

from collections import defaultdict
from collections.abc import Iterable
from typing import NamedTuple

from ..record.journal import Row
from .trace import Events


ACROSS = "#across"
"""So begins what locks are known by that processes share."""


class Place(NamedTuple):
    """A line of the program."""

    file: str | None
    line: int
    function: str

    def __str__(self) -> str:
        return f"{self.file}:{self.line}" if self.file else "?"


def number_of(lock: str) -> str:
    return lock.partition(" ")[0]


class Pattern(NamedTuple):
    """What is the same of acquisitions that are looked at as one."""

    wants: str
    """The number of the lock."""
    held: tuple[str, ...]
    at: tuple[Place, ...]
    """Where each of those was acquired."""
    place: Place
    loop: int
    """The loop whose other tasks wait as well."""
    names: tuple[str, ...]
    """Those of the held locks, and then that of the wanted one."""
    shared: frozenset[str] = frozenset()
    """The held ones under which others may read."""
    is_reading: bool = False
    """Whether the lock is wanted for reading."""
    owes: bool = False
    """Whether the first of the held ones is a queue that the task puts into once it has the lock."""

    def waits_for(self, other: Pattern) -> bool:
        """Whether the other one holds what this one wants, so that it has to wait."""
        return self.wants in other.held and not (self.is_reading and self.wants in other.shared)

    def is_apart(self, other: Pattern) -> bool:
        """Whether both never are there at once: one lock lets only one of them in."""
        return any(lock in other.held and not (lock in self.shared and lock in other.shared) for lock in self.held)


Found = dict[Pattern, dict[str, Events]]
"""The acquisitions of each pattern: by task, the events at which it was about to wait."""


def acquisitions_of(rows: Iterable[Row], signals: frozenset[str] = frozenset()) -> Found:
    """The acquisitions of locks with others held. A lock that is a signal keeps nobody out."""
    found: Found = defaultdict(lambda: defaultdict(int))
    numbers = set(map(number_of, signals))
    for row in rows:
        if row.wants is None or number_of(row.wants) in numbers:
            continue
        held = [
            (lock, Place(*at), number in row.shared) for number, (lock, at) in enumerate(zip(row.held, row.at))
            if number_of(lock) not in numbers and number_of(lock) != number_of(row.wants)
        ]
        if held:
            pattern = Pattern(
                number_of(row.wants), tuple(number_of(lock) for lock, _, _ in held), tuple(at for _, at, _ in held),
                Place(row.file, row.line, row.function), row.loop, (*(lock for lock, _, _ in held), row.wants),
                frozenset(number_of(lock) for lock, _, is_shared in held if is_shared), len(row.held) in row.shared,
            )
            found[pattern][row.task] |= 1 << row.event
    return found
