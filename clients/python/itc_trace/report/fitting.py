"""A finding as a screen has room for it: its places and its identity are whole, and what is left out is marked."""

from __future__ import annotations

from collections.abc import Iterator
from dataclasses import replace
from typing import NamedTuple

from ..model.finding import Finding, FoundSide
from ..model.readable import readable
from .screen import Screen, columns_of

BEGIN, INDENT = "itc_trace: ", "    "
"""What is before the first line of an entry, and before the others."""
LEAST_OF_THING = 8
"""So many columns of its name are shown."""


class Short(NamedTuple):
    """A finding in one line."""

    title: str
    rest: str
    """Its places, how many pairs it stands for, and its identity."""
    is_cut: bool = False


def short(finding: Finding, more: int, screen: Screen | None) -> Short:
    """A finding in one line, with how many pairs of its cause are left out. Only a screen has it cut."""
    line = finding.short(more)
    title = readable(f"{finding.told_kind} on {finding.thing}: ")
    if screen is None or screen.columns >= columns_of(f"{INDENT}{line}"):
        return Short(title, line.removeprefix(title))
    room = screen.columns - columns_of(INDENT)
    for rest in _shorter(finding, more, screen.mark):
        if columns_of(f"{title}{rest}") <= room:
            break
    else:
        around = columns_of(f"{finding.told_kind} on : {rest}")
        thing = screen.cut_middle(readable(finding.thing), max(LEAST_OF_THING, room - around))
        title = f"{finding.told_kind} on {thing}: "
    return Short(title, rest, is_cut=True)


def _shorter(finding: Finding, more: int, mark: str) -> Iterator[str]:
    """The places of a finding, that of a write first, with ever less beside them."""
    sides = sorted(finding.sides, key=lambda side: not side.is_write)
    places = list(dict.fromkeys(side.short_place for side in sides))
    first = places if len(places) == 1 else [places[0], mark]
    pairs = "pair" if more == 1 else "pairs"
    told = [[*places, f"and {more} more {pairs}"], [*places, f"+{more} {pairs}"], [*first, f"+{more} {pairs}"]]
    for words in [*told, [places[0], mark]] if more else [places, first]:
        yield readable(f"{', '.join(words)}; id {finding.identity}")


def cut_lines(finding: Finding, screen: Screen) -> list[str]:
    """The lines of a finding, each in a row if its place and its identity leave it so."""
    columns, count = screen.columns - columns_of(INDENT), len(finding.sides)
    _, *rest = finding.lines()
    return [
        _title(finding, screen, screen.columns - columns_of(BEGIN)),
        *(
            screen.cut_letters(line, columns, _end_of_place(line, side))
            for line, side in zip(rest[:count], finding.sides, strict=True)
        ),
        screen.cut_words(rest[count], columns, f"; id {finding.identity}"),
        *(screen.cut_words(line, columns) for line in rest[count + 1 :]),
    ]


def _title(finding: Finding, screen: Screen, columns: int) -> str:
    """What made the thing goes first."""
    if columns_of(finding.title) <= columns:
        return finding.title
    without = replace(finding, made=screen.mark) if finding.made else finding
    left = columns - columns_of(without.title) + columns_of(readable(finding.thing))
    thing = screen.cut_middle(readable(finding.thing), max(LEAST_OF_THING, left))
    return replace(without, thing=thing).title


def _end_of_place(line: str, side: FoundSide) -> int:
    """Where the place ends in the line of a side. Nothing before it is cut."""
    place = readable(side.short_place if side.is_java else side.place)
    return line.find(place, line.find(" at ")) + len(place)
