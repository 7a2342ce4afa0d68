"""Findings of one cause, which are shown as one entry: those of one thing, and those of one line that writes."""

from __future__ import annotations

import re
from collections.abc import Iterable
from dataclasses import dataclass

from ..model.finding import Finding

WITHIN = re.compile(r"\[.*\Z", re.DOTALL)
"""The key or the index of an element, behind the name of its container."""
Key = tuple[str, ...]


@dataclass
class Entry:
    """Findings of one cause. The first one is shown."""

    findings: list[Finding]

    @property
    def shown(self) -> Finding:
        return self.findings[0]

    @property
    def owner(self) -> str:
        """What all of them are on, in words."""
        things = list(dict.fromkeys(finding.thing for finding in self.findings))
        if len(things) == 1:
            return things[0]
        owners = list(dict.fromkeys(map(owner_of, things)))
        if len(owners) > 1:
            return f"{owners[0]} and {len(owners) - 1} more"
        return f"{owners[0]} fields" if all(is_field(thing) for thing in things) else owners[0]

    @property
    def more(self) -> str:
        """How many further pairs there are."""
        count = len(self.findings) - 1
        return f"and {count} more {'pair' if count == 1 else 'pairs'} on {self.owner}"


def is_field(thing: str) -> bool:
    return "." in WITHIN.sub("", thing)


def owner_of(thing: str) -> str:
    """The container of an element, and the class or the module of a field."""
    container = WITHIN.sub("", thing)
    return container.rpartition(".")[0] or container


def entries(findings: Iterable[Finding]) -> list[Entry]:
    """The entries in the order of their first findings. Those of different kinds are never one."""
    given = list(findings)
    groups = _Groups(len(given))
    first: dict[Key, int] = {}
    for number, finding in enumerate(given):
        for key in _causes(finding):
            groups.join(first.setdefault(key, number), number)
    found: dict[int, list[Finding]] = {}
    for number, finding in enumerate(given):
        found.setdefault(groups.of(number), []).append(finding)
    return [Entry(_shortest_first(one)) for one in found.values()]


def _causes(finding: Finding) -> list[Key]:
    """What makes findings one: their thing with what made it, or a line that writes."""
    writes = sorted({side.place for side in finding.sides if side.is_write and side.file})
    return [
        (finding.kind, "thing", owner_of(finding.thing), _made(finding)),
        *((finding.kind, "line", place) for place in writes),
    ]


def _made(finding: Finding) -> str:
    """Things of one container were made at one place. The fields of an object are not told where."""
    return "" if is_field(finding.thing) else finding.made


def _shortest_first(findings: list[Finding]) -> list[Finding]:
    """The pair whose events lie next to each other is the easiest to follow."""
    shortest = min(findings, key=_length)
    return [shortest, *(one for one in findings if one is not shortest)]


def _length(finding: Finding) -> tuple[int, int]:
    parts, events = [side.part for side in finding.sides], [side.event for side in finding.sides]
    return max(parts) - min(parts), max(events) - min(events)


class _Groups:
    """Numbers that belong together, by union and find."""

    def __init__(self, count: int) -> None:
        self._first = list(range(count))

    def of(self, number: int) -> int:
        while self._first[number] != number:
            self._first[number] = self._first[self._first[number]]
            number = self._first[number]
        return number

    def join(self, one: int, other: int) -> None:
        low, high = sorted((self.of(one), self.of(other)))
        self._first[high] = low
