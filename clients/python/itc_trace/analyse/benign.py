"""Races that the program's author means: by a comment `itc: benign` on one of their lines, or by a file of patterns.

A line of the file has a pattern of the thing, and none, one or two of the places: `stock['left'] shop.py:8 shop.py:*`.
A `*` stands for any letters, also for a space. A word that begins with `#` begins a comment.
"""

from __future__ import annotations

import re
from collections.abc import Iterable, Iterator, Sequence
from dataclasses import dataclass, field
from itertools import permutations, takewhile
from pathlib import Path, PurePath
from typing import TypeVar

from ..record.faults import Fault
from ..model.finding import Finding, FoundSide, Known, named
from ..model.sources import Sources
from .benign_comments import lines_with_comment
from .deadlocks import Deadlock, LockSide
from .races import Race, Races, Side

One = TypeVar("One", Race, Deadlock)
AnySide = Side | LockSide | FoundSide
PLACE = re.compile(r"[^:*].*:\d+|.*\*.*")
MOST_PLACES = 2


@dataclass(frozen=True)
class Pattern:
    """Races that are meant: a thing, and places of which each is one side."""

    thing: str
    places: tuple[str, ...] = ()
    line: str = ""
    """Where it stands, by its file and the number of its line."""

    def fits(self, race: Race | Deadlock | Finding) -> bool:
        of_race: Sequence[AnySide] = race.sides
        return _fits(race.thing, self.thing) and any(
            all(_is_at(side, place) for side, place in zip(sides, self.places, strict=True))
            for sides in permutations(of_race, len(self.places))
        )


def _is_at(side: AnySide, place: str) -> bool:
    file, _, line = side.place.rpartition(":")
    return _fits(side.place, place) or _fits(f"{PurePath(file).name}:{line}", place)


def _fits(text: str, pattern: str) -> bool:
    return re.fullmatch(".*".join(map(re.escape, pattern.split("*"))), text, re.DOTALL) is not None


@dataclass
class Looking:
    """How races are looked for: whether one loop's tasks race as threads do, and what is meant."""

    strict: bool = False
    patterns: list[Pattern] = field(default_factory=list)
    baseline: list[Known] = field(default_factory=list)
    """The races that are known already."""
    has_looked: bool = False
    met: set[Known] = field(default_factory=set)
    """All that were found and are not meant, whether they are known or not."""
    _fitting: set[Pattern] = field(default_factory=set)
    _known: frozenset[Known] = frozenset()

    def silence(self, found: Races) -> None:
        """Takes out what is meant and what is known, and keeps both apart."""
        self.has_looked = True
        self._known = frozenset(self.baseline)
        found.races = list(self._left(found.races, found))
        found.deadlocks = list(self._left(found.deadlocks, found))
        found.possible = list(self._left(found.possible, found))
        found.possible_deadlocks = list(self._left(found.possible_deadlocks, found))
        found.hidden = [
            race for race in found.hidden
            if not self._is_meant(race, found.sources) and not self._is_known(race, found)
        ]

    def _left(self, races: Iterable[One], found: Races) -> Iterator[One]:
        """Those that are neither meant nor in the baseline."""
        for race in races:
            if self._is_meant(race, found.sources):
                found.meant.append(race)
                continue
            known = race.finding(found.sources).known_as
            self.met.add(known)
            if known in self._known:
                found.known.append(race)
            else:
                yield race

    def _is_known(self, race: Race, found: Races) -> bool:
        return race.finding(found.sources).known_as in self._known

    def _is_meant(self, race: Race | Deadlock, sources: Sources) -> bool:
        fitting = {pattern for pattern in self.patterns if pattern.fits(race)}
        self._fitting |= fitting
        return bool(fitting) or any(_has_comment(side, sources) for side in race.sides)

    def unfitting(self) -> Iterator[str]:
        """The lines of files by which no race is meant, in words for a person."""
        lines = [
            f"{pattern.line} ({' '.join((pattern.thing, *pattern.places))})" for pattern in self.patterns
            if pattern not in self._fitting
        ]
        if lines:
            yield f"no race is silenced by {', '.join(lines)}"
        gone = self.gone()
        if gone:
            yield named(gone)

    def gone(self) -> list[Known]:
        """The races of the baseline that did not occur."""
        return [one for one in self.baseline if one not in self.met]


def _has_comment(side: Side | LockSide, sources: Sources) -> bool:
    file, _, line = side.place.rpartition(":")
    return line.isdigit() and int(line) in lines_with_comment(sources.path(file) or file)


def read_patterns(file: str) -> list[Pattern]:
    """The patterns of a file."""
    try:
        text = Path(file).read_text(encoding="utf-8-sig")
    except (OSError, UnicodeDecodeError) as error:
        reason = error.strerror if isinstance(error, OSError) else "it is no text"
        raise Fault(f"{file} cannot be read: {reason}") from error
    return list(_patterns(text.splitlines(), file))


def _patterns(lines: Iterable[str], file: str) -> Iterable[Pattern]:
    for number, line in enumerate(lines, 1):
        words = list(takewhile(lambda word: not word.startswith("#"), line.split()))
        if len(words) > MOST_PLACES + 1:
            raise Fault(f"{file}:{number}: a thing and two places at most: write * for a space")
        for place in words[1:]:
            if not PLACE.fullmatch(place):
                raise Fault(
                    f"{file}:{number}: {place} is no place: name one as shop.py:7, where * stands for any letters"
                )
        if words:
            yield Pattern(words[0], tuple(words[1:]), f"{file}:{number}")
