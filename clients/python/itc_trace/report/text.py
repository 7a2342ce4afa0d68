"""The report in words for a person."""

from __future__ import annotations

import os
from collections.abc import Iterable, Iterator
from dataclasses import dataclass
from itertools import chain, islice

from ..model.finding import Finding
from ..model.readable import readable, uri_of
from ..model.verdict import Verdict, listed, reasons
from .fitting import BEGIN, INDENT, cut_lines, short
from .grouping import Entry, entries
from .report import Report
from .screen import Screen, columns_of
from .style import Style

MOST_WITHOUT_SUMMARY = 5
MOST_NAMED = 10
"""So many things the summary names at most."""
MOST_LINES = 24
"""So many lines a list has at most, unless somebody has asked for more. An entry that has no room is one line."""


@dataclass(frozen=True)
class Shown:
    """How much of a report is shown. What it counts does not depend on this."""

    is_all: bool = False
    """Whether each pair is shown, and not one of each cause."""
    most: int | None = None
    """So many entries at most."""
    how: str = "--all"
    """What is typed to see each pair."""

    @property
    def is_asked_for(self) -> bool:
        """Whether somebody has said how much it is to be."""
        return self.is_all or self.most is not None


def text(report: Report, shown: Shown = Shown(), style: Style = Style(), screen: Screen | None = None) -> str:
    """Why it is incomplete, where it is, and what was found, each with a link into the picture, where there is one.

    If it takes more rows than a screen has, its lines are cut.
    """
    lines = _Listing(report, shown, style).lines()
    if screen is not None and not shown.is_asked_for and not screen.holds(lines):
        lines = _Listing(report, shown, style, screen).lines()
    return "\n".join(lines)


@dataclass(frozen=True)
class _Room:
    """How many lines there may be, and how many rows of a screen they may take."""

    lines: int
    screen: Screen | None

    def holds(self, given: Iterable[str]) -> bool:
        """No more lines are asked for than decide it."""
        lines = list(islice(given, max(0, self.lines + 1)))
        return len(lines) <= self.lines and (self.screen is None or self.screen.holds(lines))


@dataclass(frozen=True)
class _Listing:
    """Writes a list, and cuts its lines if it has a screen."""

    report: Report
    shown: Shown
    style: Style
    screen: Screen | None = None

    def lines(self) -> list[str]:
        causes = entries(self.report.findings)
        before, behind = list(self._before(causes)), list(self._behind(causes))
        if self.shown.is_asked_for:
            found = [Entry([one]) for one in self.report.findings] if self.shown.is_all else causes
            return [*before, *self._whole(found), *behind]
        screen = None if self.screen is None else self.screen.without([*before, *behind])
        return [*before, *self._within(_Room(MOST_LINES - len(before) - len(behind), screen), causes), *behind]

    def _before(self, causes: list[Entry]) -> Iterator[str]:
        if self.report.unseen:
            yield f"{BEGIN}incomplete: {readable(reasons(self.report.unseen))}"
        if len(causes) > MOST_WITHOUT_SUMMARY:
            yield self._summary(causes)

    def _behind(self, causes: list[Entry]) -> Iterator[str]:
        yield from (f"{BEGIN}{readable(hint)}" for hint in self.report.hints)
        if self.report.picture is not None and not causes:
            yield f"{BEGIN}the picture is {_address(self.report.picture)}"
        summary, passed_over = self.report.summary, self.report.passed_over
        if self.screen is not None:
            summary = summary.replace(listed(passed_over), listed(passed_over, 1))
        yield f"{BEGIN}{self.style.summary(readable(summary), self.report.verdict is Verdict.NO_RACE)}"

    def _summary(self, causes: list[Entry]) -> str:
        """What was found on which things, and how often. On a screen it takes one row, if it can."""
        for most in range(MOST_NAMED, 0, -1):
            line = f"{BEGIN}{readable(_counts(causes, most))}"
            if self.screen is None or columns_of(line) <= self.screen.columns:
                break
        return line

    def _whole(self, found: list[Entry]) -> Iterator[str]:
        """Each entry with all its lines, up to the most that are asked for."""
        most = self.shown.most
        for entry in found[:most]:
            yield from self._entry(entry)
        if most is not None and len(found) > most:
            yield f"{BEGIN}and {len(found) - most} more, which --max {most} leaves out"

    def _within(self, room: _Room, found: list[Entry]) -> list[str]:
        """The first entries with all their lines, and a line for each of the others, as far as there is room.

        On a screen their lines are cut where another entry would have none.
        """
        if not found:
            return []
        lines, is_whole = self._arranged(room, found, is_cut=False)
        return lines if is_whole or self.screen is None else self._arranged(room, found, is_cut=True)[0]

    def _arranged(self, room: _Room, found: list[Entry], is_cut: bool) -> tuple[list[str], bool]:
        """The lines, and whether each entry has room."""
        lines_of = self._cut_entry if is_cut else self._entry
        lines = lines_of(found[0])
        number = 1
        while number < len(found):
            more = [*lines, *lines_of(found[number])]
            if not room.holds(chain(more, self._others(found[number + 1 :], 0, is_cut))):
                break
            lines, number = more, number + 1
        rest = found[number:]
        left = max(0, len(rest) - MOST_LINES)
        while left < len(rest) and not room.holds(chain(lines, self._others(rest, left, is_cut))):
            left += 1
        lines += self._others(rest, left, is_cut)
        return lines, left == 0 and room.holds(lines)

    def _others(self, found: list[Entry], left: int, is_cut: bool) -> Iterator[str]:
        """A line for each but so many of the last ones. What is left out and cut is told behind them."""
        if found:
            yield f"{BEGIN}the others in a line each: {self.shown.how}"
        for entry in found[: len(found) - left]:
            line = short(entry.shown, len(entry.findings) - 1, self.screen)
            yield f"{INDENT}{self.style.short(line.title, line.rest, entry.shown, self.report.folder)}"
            is_cut = is_cut or line.is_cut
        more = f"and {left} more" if left else ""
        if self.screen is not None and (more or is_cut):
            told = f"cut to fit here: {self.shown.how}, --max N or explain ID has the rest"
            yield f"{INDENT}{more}{'; ' if more else ''}{told}"
        elif more:
            yield f"{INDENT}{more}"

    def _entry(self, entry: Entry) -> list[str]:
        return self._written(entry, entry.shown.lines(), f"{readable(entry.more)}: {self.shown.how}")

    def _cut_entry(self, entry: Entry) -> list[str]:
        screen, how = self.screen or Screen(), f": {self.shown.how}"
        more = screen.cut_words(f"{readable(entry.more)}{how}", screen.columns - columns_of(INDENT), how)
        return self._written(entry, cut_lines(entry.shown, screen), more)

    def _written(self, entry: Entry, told: list[str], more: str) -> list[str]:
        title, *further = self.style.lines(told, entry.shown, self.report.folder)
        lines = [f"{BEGIN}{title}", *(f"{INDENT}{line}" for line in further)]
        if self.report.picture is not None:
            lines.append(f"{INDENT}{link(entry.shown, self.report.picture)}")
        if len(entry.findings) > 1:
            lines.append(f"{INDENT}{more}")
        return lines


def _counts(causes: list[Entry], most: int) -> str:
    """What was found on which things, of which so many are named."""
    counts: dict[str, int] = {}
    for entry in causes:
        counts[entry.owner] = counts.get(entry.owner, 0) + len(entry.findings)
    most_first = sorted(counts.items(), key=lambda one: -one[1])
    pairs = ", ".join(f"{owner} ({count})" for owner, count in most_first[:most])
    left = sum(count for _, count in most_first[most:])
    more = f" and {len(counts) - most} more ({left})" if left else ""
    return f"pairs by their things: {pairs}{more}"


def link(finding: Finding, picture: str) -> str:
    """Leads to both touches, or to the second one if the first is in another part of the run."""
    first, second = finding.sides[0], finding.sides[-1]
    part = f"part={second.part}&" if second.part > 1 else ""
    events = f"event={first.event}&other={second.event}" if first.part == second.part else f"event={second.event}"
    return f"{_address(picture)}#{part}{events}"


def _address(file: str) -> str:
    return f"file://{uri_of(os.path.abspath(file))}"
