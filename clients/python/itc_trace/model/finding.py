"""One thing that was found, as a value that each format is written of: what it is on, and both of its touches."""

from __future__ import annotations

import json
import re
from collections.abc import Sequence
from dataclasses import dataclass, field
from pathlib import PurePath
from typing import NamedTuple

from .readable import readable

RACE, POSSIBLE_RACE = "race", "possible race"
DEADLOCK, POSSIBLE_DEADLOCK = "deadlock", "possible deadlock"
"""Their sides are two of each task: the lock that it holds, and the one that it wants."""
DIGITS = 12
SPACES = " ".join
JAVA = ".java"
NUMBERED = {JAVA: re.compile(r"(?<=\$)\d+"), ".go": re.compile(r"(?<=\.func)\d+(\.\d+)*\b")}
"""The numbers that a compiler gives to functions without a name, in the order of their lines."""


class Step(NamedTuple):
    """An event of a task, in few words."""

    event: int
    part: int
    label: str
    place: str = ""


@dataclass(frozen=True)
class Story:
    """What the task of each side did before and after, and what would have put the sides in order."""

    before: tuple[tuple[Step, ...], ...] = ()
    after: tuple[tuple[Step, ...], ...] = ()
    orders: tuple[str, ...] = ()


@dataclass(frozen=True)
class FoundSide:
    """What one task did: where, with its source, and the locks that it held."""

    kind: str
    file: str
    line: int
    function: str = ""
    task: str = ""
    event: int = 0
    part: int = 1
    held: tuple[str, ...] = ()
    is_in_loop: bool = False
    is_write: bool = False
    begin: int = 0
    """The number of the first line of `text`."""
    text: tuple[str, ...] = ()
    """Lines of source around the place. There are none where they are not known."""
    path: str = ""
    """Where the file was found, if its name does not lead there, as that of a file of Java."""

    @property
    def found_at(self) -> str:
        """The file as it is found from the folder of the report."""
        return self.path or self.file

    @property
    def place(self) -> str:
        return f"{self.file}:{self.line}" if self.file else "?"

    @property
    def short_place(self) -> str:
        """The place without the folders of its file."""
        return f"{PurePath(self.file).name}:{self.line}" if self.file else "?"

    @property
    def source(self) -> str:
        """The line of the place."""
        number = self.line - self.begin
        return self.text[number].strip() if 0 <= number < len(self.text) else ""

    @property
    def known_as(self) -> KnownSide:
        """If there is no source here, the name of the file stands for it."""
        numbered = NUMBERED.get(PurePath(self.file).suffix)
        function = self.function if numbered is None else numbered.sub("", self.function)
        return KnownSide(self.kind, function, SPACES(self.source.split()) or PurePath(self.file).name)

    @property
    def is_java(self) -> bool:
        return self.file.endswith(JAVA) and bool(self.function)

    @property
    def told_place(self) -> str:
        """The place with its function, as people of the language write it."""
        if self.is_java:
            return f"{self.function} ({self.short_place})"
        return f"{self.place}{f' in {self.function}' if self.function and self.function != '<module>' else ''}"

    def told(self, width: int) -> str:
        return readable(f"{self.kind:{width}} at {self.told_place}{':  ' if self.source else ''}{self.source}")


@dataclass(frozen=True, order=True)
class KnownSide:
    """What stays of a side if other lines move it: what it does, in which function, and its source with single
    spaces."""

    kind: str
    function: str
    source: str


@dataclass(frozen=True)
class Known:
    """A finding by what stays of it: neither the numbers of lines nor the names of tasks."""

    thing: str
    sides: tuple[KnownSide, ...]

    @property
    def identity(self) -> str:
        import hashlib  # It loads OpenSSL, which a traced program does without.

        text = json.dumps([self.thing, [[side.kind, side.function, side.source] for side in self.sides]])
        return hashlib.sha256(text.encode()).hexdigest()[:DIGITS]

    def __str__(self) -> str:
        return f"{self.identity} ({self.thing})"


MOST_NAMED = 10


def named(gone: Sequence[Known]) -> str:
    """Those of the baseline that did not occur, in words for a person."""
    more = f" and {len(gone) - MOST_NAMED} more" if len(gone) > MOST_NAMED else ""
    return f"of the baseline did not occur: {', '.join(map(str, gone[:MOST_NAMED]))}{more}"


@dataclass(frozen=True)
class Seen:
    """In how many runs it was found, of how many, and in which first."""

    runs: int
    of: int
    first: int
    seed: int | None = None

    def __str__(self) -> str:
        by_seed = "" if self.seed is None else f" (--shake={self.seed})"
        return f"in {self.runs} of {runs_in_words(self.of)}, first in run {self.first}{by_seed}"


def runs_in_words(count: int) -> str:
    return "1 run" if count == 1 else f"{count} runs"


@dataclass(frozen=True)
class Finding:
    """What was found. A format that knows no more than this can write each kind of it."""

    kind: str
    """In words: `race`, `possible race`, `deadlock`, `possible deadlock`."""
    thing: str
    sides: tuple[FoundSide, ...]
    why: str
    """Why nothing keeps the sides apart, or what holds them."""
    times: int = 1
    made: str = ""
    """What made the thing, and where."""
    is_possible: bool = False
    """Whether it did not happen in this run, by luck alone. It fails a run only if it is asked to."""
    is_confirmed: bool = False
    """Whether it was possible only, and a further run that was to bring it about met it."""
    seen: Seen | None = None
    """Of several runs."""
    tests: tuple[str, ...] = field(default=(), compare=False)
    """The tests of pytest that met it, or those of JUnit of which its tasks are."""
    story: Story = field(default=Story(), compare=False)

    @property
    def is_deadlock(self) -> bool:
        return self.kind in (DEADLOCK, POSSIBLE_DEADLOCK)

    @property
    def is_of_this_run(self) -> bool:
        """Whether its events are those of the trace that is told of."""
        return all(side.event for side in self.sides)

    @property
    def known_as(self) -> Known:
        return Known(self.thing, tuple(sorted(side.known_as for side in self.sides)))

    @property
    def identity(self) -> str:
        """Digits that stay the same if other lines move it."""
        return self.known_as.identity

    @property
    def told_kind(self) -> str:
        """The kind, with how sure it is."""
        return f"confirmed {self.kind}" if self.is_confirmed else self.kind

    @property
    def title(self) -> str:
        return readable(f"{self.told_kind} on {self.thing}{f' ({self.made})' if self.made else ''}")

    @property
    def told_sides(self) -> list[str]:
        width = max((len(side.kind) for side in self.sides), default=0)
        if self.is_deadlock:
            names = max((len(side.task) for side in self.sides), default=0)
            return [f"{side.task:{names}} {side.told(width)}" for side in self.sides]
        return [side.told(width) for side in self.sides]

    @property
    def told_order(self) -> str:
        tasks = "tasks" if any(side.is_in_loop for side in self.sides) else "threads"
        times = "once" if self.times == 1 else f"{self.times} times"
        names = " and ".join(dict.fromkeys(side.task for side in self.sides))
        if self.kind == DEADLOCK:
            return readable(f"{tasks} {names}: {self.why}; id {self.identity}")
        events = f", as {_events(self.sides)}" if self.is_of_this_run else ""
        return readable(f"{tasks} {names}: {self.why}; {times}{events}; id {self.identity}")

    @property
    def told_tests(self) -> str:
        """Which tests met it."""
        first = self.tests[0]
        return f"in {first}" if len(self.tests) == 1 else f"in {len(self.tests)} tests, first in {first}"

    def short(self, more: int = 0) -> str:
        """In one line for a person, with how many pairs of the same cause there are."""
        sides = ", ".join(dict.fromkeys(f"{side.kind} at {side.short_place}" for side in self.sides))
        further = f", and {more} more {'pair' if more == 1 else 'pairs'}" if more else ""
        return readable(f"{self.told_kind} on {self.thing}: {sides}{further}; id {self.identity}")

    def lines(self) -> list[str]:
        """In words for a person. All but the first are to be indented."""
        seen, tests = [str(self.seen)] if self.seen else [], [readable(self.told_tests)] if self.tests else []
        return [self.title, *self.told_sides, self.told_order, *seen, *tests]


def _events(sides: tuple[FoundSide, ...]) -> str:
    """By their numbers, and those of their parts if the run has several."""
    parts = {side.part for side in sides}
    if len(parts) == 1:
        of_part = f" of part {sides[0].part}" if sides[0].part > 1 else ""
        return f"events {' and '.join(dict.fromkeys(str(side.event) for side in sides))}{of_part}"
    return " and ".join(dict.fromkeys(f"event {side.event} of part {side.part}" for side in sides))
