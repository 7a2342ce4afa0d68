"""How the list for a person looks: plain, or on a terminal with colours and with places that lead to their files."""

from __future__ import annotations

import os
import re
from collections.abc import Mapping
from typing import TextIO

from ..model.finding import Finding, FoundSide
from ..model.readable import readable, uri_of
from .screen import is_terminal

RED, YELLOW, GREEN, FAINT, END = "\033[1;31m", "\033[1;33m", "\033[32m", "\033[2m", "\033[0m"
WITHOUT_COLOURS, WITHOUT_LINKS = ("dumb", ""), ("linux",)
"""What `TERM` is called where a terminal has no colours, and where it shows links as letters."""


class Style:
    """Plain text."""

    def lines(self, told: list[str], finding: Finding, folder: str) -> list[str]:
        """The lines that are told of a finding: its title, its sides, and the others."""
        return told

    def short(self, title: str, rest: str, finding: Finding, folder: str) -> str:
        """A finding in one line, whose places are behind its title."""
        return f"{title}{rest}"

    def summary(self, text: str, is_good: bool) -> str:
        return text


class TerminalStyle(Style):
    """With colours, and with links by OSC 8 if the terminal has them."""

    def __init__(self, has_links: bool) -> None:
        self._has_links = has_links

    def lines(self, told: list[str], finding: Finding, folder: str) -> list[str]:
        title, *rest = told
        for number, side in enumerate(finding.sides):
            before, at, behind = rest[number].partition(" at ")
            place = side.short_place if side.is_java else side.place
            rest[number] = f"{before}{at}{self._with_link(behind, side, place, folder)}"
        shown = rest[: len(finding.sides)]
        faint = [f"{FAINT}{line}{END}" for line in rest[len(finding.sides) :]]
        return [self._with_colour(title, finding), *shown, *faint]

    def short(self, title: str, rest: str, finding: Finding, folder: str) -> str:
        for side in {side.short_place: side for side in finding.sides}.values():
            rest = self._with_link(rest, side, side.short_place, folder)
        return f"{self._with_colour(title, finding)}{rest}"

    def _with_colour(self, line: str, finding: Finding) -> str:
        colour = YELLOW if finding.is_possible else RED
        return line.replace(finding.told_kind, f"{colour}{finding.told_kind}{END}", 1)

    def _with_link(self, text: str, side: FoundSide, place: str, folder: str) -> str:
        """The text, in which the place leads to its file."""
        whole = os.path.join(folder, side.found_at)
        if not self._has_links or not side.file or side.file.startswith("<") or not os.path.isabs(whole):
            return text
        shown = readable(place)
        linked = f"\033]8;;file://{uri_of(whole)}\033\\{shown}\033]8;;\033\\"
        return re.sub(rf"{re.escape(shown)}(?!\d)", lambda _: linked, text, count=1)

    def summary(self, text: str, is_good: bool) -> str:
        return f"{GREEN if is_good else RED}{text}{END}"


def style_of(stream: TextIO | None, environment: Mapping[str, str] = os.environ) -> Style:
    """Colours are for terminals alone, and for those who have not set `NO_COLOR`."""
    kind = environment.get("TERM", "")
    if not is_terminal(stream) or environment.get("NO_COLOR") or kind in WITHOUT_COLOURS:
        return Style()
    return TerminalStyle(kind not in WITHOUT_LINKS)
