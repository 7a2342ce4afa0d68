"""What is due for a program, what a run of it says, and what is wrong between the two.

A program's docstring ends with lines of what is due, and its comments mark the places:

    due: race                   the verdict: `race`, `possible` or `none`, or two of them with `or`, if the schedule decides
    thing: Shop.stock           words that the name of a thing that races has, or several such names with ` or `
    uses: _shop.py              further files of the program, in its folder
    count += 1  # race: read, write     this line is one of the two of a race, or of a possible one
    print(count)  # also: read          this line may be one of them, too
"""

from __future__ import annotations

import ast
import re
from dataclasses import dataclass
from pathlib import Path

RACE, CLEAN = 66, 0
VERDICTS = ("race", "possible", "none")
READS = {"read", "lookup", "length", "keys", "iteration"}
WRITES = {"write", "addition", "removal", "replacement", "rewrite"}

_MARK = re.compile(r"#\s*(race|also):\s*((?:read|write)(?:,\s*(?:read|write))*)\s*$")
_HEADING = re.compile(r"^itc_trace: (possible )?race on (.*)$")
_SIDE = re.compile(rf"\b({'|'.join(sorted(READS | WRITES))})\s+at (.+?):(\d+)")


@dataclass(frozen=True, order=True)
class Place:
    """One of the two places of a race."""

    kind: str
    file: str
    line: int

    def __str__(self) -> str:
        return f"{self.kind} at {self.file}:{self.line}"


@dataclass(frozen=True)
class Told:
    """A race, or a possible one, that a run tells of."""

    verdict: str
    thing: str
    places: tuple[Place, ...]

    def __str__(self) -> str:
        return f"{self.verdict} on {self.thing}: {' and '.join(map(str, self.places))}"


@dataclass(frozen=True)
class Due:
    """What is due for a program."""

    verdicts: frozenset[str]
    things: tuple[str, ...]
    uses: tuple[str, ...]
    places: frozenset[Place]
    further: frozenset[Place]


def due_of(program: Path) -> Due:
    """What the program's own text says that is due."""
    header = dict(re.findall(r"^(due|thing|uses): (.+)$", ast.get_docstring(ast.parse(program.read_text())) or "", re.MULTILINE))
    verdicts = frozenset(header["due"].split(" or "))
    uses = tuple(header.get("uses", "").split())
    marks = [mark for name in (program.name, *uses) for mark in _marks(program.with_name(name))]
    due = Due(
        verdicts, tuple(header.get("thing", "").split(" or ")), uses,
        frozenset(place for word, place in marks if word == "race"), frozenset(place for word, place in marks if word == "also"),
    )
    if not verdicts <= set(VERDICTS) or bool(due.places) != (verdicts != {"none"}):
        raise ValueError(f"{program}: the marks do not fit to what is due")
    return due


def _marks(file: Path) -> list[tuple[str, Place]]:
    found = []
    for number, line in enumerate(file.read_text().splitlines(), 1):
        mark = _MARK.search(line)
        if mark is not None:
            found += [(mark[1], Place(kind.strip(), file.name, number)) for kind in mark[2].split(",")]
        elif re.search(r"#\s*(race|also)\b", line):
            raise ValueError(f"{file}:{number}: a mark that cannot be read")
    return found


def told_by(text: str) -> list[Told]:
    """The races, and the possible ones, in what `run` wrote. Further lines of one are indented."""
    told = []
    lines = text.splitlines()
    for number, line in enumerate(lines):
        heading = _HEADING.match(line)
        if heading is not None:
            thing, _, rest = _split_heading(heading[2])
            below = "\n".join([rest, *_indented(lines[number + 1:])])
            told.append(Told("possible" if heading[1] else "race", thing, _places(below)))
    return told


def _places(text: str) -> tuple[Place, ...]:
    found = _SIDE.findall(text)
    return tuple(sorted({Place("read" if kind in READS else "write", Path(file).name, int(line)) for kind, file, line in found}))


def _indented(lines: list[str]) -> list[str]:
    until = next((number for number, line in enumerate(lines) if not line.startswith("    ")), len(lines))
    return lines[:until]


def _split_heading(heading: str) -> tuple[str, str, str]:
    """The name of a thing, and what stands behind it: where it was made, or its places."""
    found = re.search(r" \((?=an? )|: (?=\w+ at )", heading)
    if found is None:
        return heading, "", ""
    return heading[:found.start()], found[0], heading[found.start():] if found[0] == ": " else ""


def faults(due: Due, status: int, text: str) -> list[str]:
    """What is wrong in a run's status and words. Nothing, if they are as they are due."""
    told = told_by(text)
    verdict = min((one.verdict for one in told), key=VERDICTS.index, default="none")
    wrong = []
    if verdict not in due.verdicts:
        wrong.append(f"the verdict is {verdict}")
    if status != (RACE if verdict == "race" else CLEAN):
        wrong.append(f"the status is {status}")
    if verdict != "race" and not re.search(r"^itc_trace: no race\b", text, re.MULTILINE):
        wrong.append("nothing says that there is no race")
    wrong += [f"what is told is not due: {one}" for one in told if not _is_due(due, one)]
    wrong += [f"nothing tells of the {place}" for place in sorted(due.places) if told and not _is_told(due, place, told)]
    if told and len({(place.file, place.line) for place in due.places}) == 2 and not any(_joins(due, one) for one in told):
        wrong.append("nothing tells of the two lines together")
    return wrong


def _is_due(due: Due, told: Told) -> bool:
    known = due.places | due.further
    return bool(told.places) and set(told.places) <= known and any(_is_named(thing, told.thing) for thing in due.things)


def _is_named(due: str, told: str) -> bool:
    return set(re.findall(r"\w+", due)) <= set(re.findall(r"\w+", told))


def _is_told(due: Due, place: Place, told: list[Told]) -> bool:
    """Whether the place's line is told of together with another that is due, or by itself."""
    return any(
        (place.file, place.line) in {(one.file, one.line) for one in race.places} and set(race.places) <= due.places
        for race in told
    )


def _joins(due: Due, told: Told) -> bool:
    return {(place.file, place.line) for place in told.places} == {(place.file, place.line) for place in due.places}
