"""The screen that a list is shown on: how large it is, how much of it a text takes, and what is cut to fit there."""

from __future__ import annotations

import os
import re
import unicodedata
from collections.abc import Iterable, Mapping
from dataclasses import dataclass, replace
from typing import TextIO

USUAL_COLUMNS, USUAL_ROWS = 80, 24
"""Those of a terminal that does not tell its size."""
ESCAPES = re.compile(r"\033\[[0-9;]*m|\033\]8;;[^\033]*\033\\")
"""Colours and links, which take no room."""
TAB = 8
WIDE = ("W", "F")
WITHOUT_WIDTH = ("Mn", "Me", "Cf")
MARK, MARK_IN_ASCII = "…", ".."


@dataclass(frozen=True)
class Screen:
    """How much room there is."""

    columns: int = USUAL_COLUMNS
    rows: int = USUAL_ROWS
    mark: str = MARK
    """What stands for what is cut."""

    def rows_of(self, line: str) -> int:
        """A letter that is wider than what is left of a row begins the next one. A tab stays within its row."""
        rows, column = 1, 0
        for letter in ESCAPES.sub("", line):
            if letter == "\t":
                column = min(self.columns, column + TAB - column % TAB)
                continue
            width = _width(letter)
            if column + width > self.columns:
                rows, column = rows + 1, 0
            column += width
        return rows

    def holds(self, lines: Iterable[str]) -> bool:
        return sum(map(self.rows_of, lines)) <= self.rows

    def without(self, lines: Iterable[str]) -> Screen:
        """What is left of it beside these lines."""
        return replace(self, rows=self.rows - sum(map(self.rows_of, lines)))

    def cut_letters(self, text: str, columns: int, least: int) -> str:
        """The text without its end, as far as that has no room. So many letters stay, and a space is behind them."""
        begin = text[: max(least, _letters_within(text, columns - columns_of(self.mark)))].rstrip(" :")
        apart = " " if len(begin) <= least else ""
        return self._shorter(text, f"{begin}{apart}{self.mark}", columns)

    def cut_words(self, text: str, columns: int, end: str = "") -> str:
        """The text without its last words, as far as they have no room. What it ends with stays."""
        words = text.removesuffix(end).split(" ")
        while len(words) > 1 and columns_of(f"{' '.join(words)} {self.mark}{end}") > columns:
            words.pop()
        return self._shorter(text, f"{' '.join(words)} {self.mark}{end}", columns)

    def cut_middle(self, text: str, columns: int) -> str:
        """The text with both of its ends, as far as there is room."""
        room = max(2, columns - columns_of(self.mark))
        begin = text[: _letters_within(text, room - room // 2)]
        end = text[len(text) - _letters_within(text[::-1], room // 2) :]
        return self._shorter(text, f"{begin}{self.mark}{end}", columns)

    def _shorter(self, text: str, cut: str, columns: int) -> str:
        return text if columns_of(text) <= max(columns, columns_of(cut)) else cut


def columns_of(text: str) -> int:
    column = 0
    for letter in text:
        column += TAB - column % TAB if letter == "\t" else _width(letter)
    return column


def _width(letter: str) -> int:
    if letter.isascii():
        return 1
    if unicodedata.category(letter) in WITHOUT_WIDTH:
        return 0
    return 2 if unicodedata.east_asian_width(letter) in WIDE else 1


def _letters_within(text: str, columns: int) -> int:
    """How many of its first letters have room. A tab may have to be there for all that it can take."""
    for number, letter in enumerate(text):
        columns -= TAB if letter == "\t" else _width(letter)
        if columns < 0:
            return number
    return len(text)


def is_terminal(stream: TextIO | None) -> bool:
    try:
        return stream is not None and stream.isatty()
    except ValueError:  # It is closed.
        return False


def screen_of(stream: TextIO | None, environment: Mapping[str, str] = os.environ) -> Screen | None:
    """The screen that a stream is shown on. There is none if it is no terminal.

    `COLUMNS` and `LINES` win over what the terminal tells.
    """
    if stream is None or not is_terminal(stream):
        return None
    try:
        columns, rows = os.get_terminal_size(stream.fileno())
    except (OSError, ValueError):
        columns, rows = 0, 0
    return Screen(
        _number(environment.get("COLUMNS", "")) or columns or USUAL_COLUMNS,
        _number(environment.get("LINES", "")) or rows or USUAL_ROWS, _mark(stream.encoding),
    )


def _number(word: str) -> int:
    return int(word) if word.isascii() and word.isdigit() else 0


def _mark(encoding: str | None) -> str:
    try:
        MARK.encode(encoding or "ascii")
    except (UnicodeEncodeError, LookupError):
        return MARK_IN_ASCII
    return MARK
