"""What the rewriting of a module asks of the process, and what it finds out: kept beside the code,
for a later run is to know the same."""

from __future__ import annotations

import builtins
from collections.abc import Callable
from typing import Any, NamedTuple

STORED_ELSEWHERE: set[str] = set()
"""Names that some module has stored in another, as `config.debug = True` does.

A module that imports is looked at before what it imports.
"""
STORED_FIELDS: set[str] = set()
"""Names of fields that some module stores: what is called by such a name may be anything,
and is no method of a class mostly."""
KEYWORDS = "keywords of partial"
"""Stands among them if some module has the keywords of something by their name, which may be a `partial`."""
OF_CLASSES = "of classes: "
"""Stands before a name that is stored in what is surely a class: its objects find it there, or no more."""

AccessRow = tuple[str, str, str, str, Any]
"""What is touched at a place, how, by which name and text, and what else is known."""

FIRST_MARK = 0x5BE0_CD19_137E_2179
"""The number of a module's first site in its code, until it is known which numbers are free in the process."""
MOST_SITES = 1 << 28
"""Of one module. Its source has none of so many numbers from the first one on."""


def _nothing_watched(name: str) -> bool:
    return False


class Asked:
    """Questions that a rewriting asked of the process, with their answers: another process may answer otherwise."""

    __slots__ = ("imports", "builtins", "fields", "elsewhere")

    def __init__(self) -> None:
        self.imports: dict[str, bool] = {}
        self.builtins: dict[str, bool] = {}
        self.fields: dict[str, bool] = {}
        self.elsewhere: dict[str, bool] = {}


class Found(NamedTuple):
    """What a rewriting has found out."""

    first: int
    """The number of the first site in the code."""
    lines: list[int]
    functions: list[str]
    accesses: list[AccessRow]
    """Of each place."""
    cases: dict[int, list[Any]]
    """Of `match` statements, by the number of the site."""
    handed: dict[tuple[int, str], str]
    """How the program calls a container, one of whose methods is an argument of a call, by line and method."""
    passed_over: list[tuple[str, int]]
    """What no hook looks into, and its line."""
    loops: list[tuple[int, int, int]]
    """Of each loop the number of its place, and its first and its last line."""
    undoing: dict[int, str]
    """How the changes at some places go with earlier ones, by how far each is behind the first site."""
    fields: set[str]
    """The names that the module adds to the fields that modules store."""
    elsewhere: set[str]


class Learned:
    """What one rewriting asks and finds."""

    def __init__(self, is_watched: Callable[[str], bool] = _nothing_watched) -> None:
        self._is_watched = is_watched
        self.asked = Asked()
        self.first = FIRST_MARK
        self.lines: list[int] = []
        self.functions: list[str] = []
        self.accesses: list[AccessRow] = []
        self.cases: dict[int, list[Any]] = {}
        self.handed: dict[tuple[int, str], str] = {}
        self.passed_over: list[tuple[str, int]] = []
        self.fields: set[str] = set()
        self.elsewhere: set[str] = set()
        self.loops: list[tuple[int, int, int]] = []
        self.undoing: dict[int, str] = {}

    def found(self) -> Found:
        return Found(
            self.first, self.lines, self.functions, self.accesses, self.cases, self.handed, self.passed_over,
            self.loops, self.undoing, self.fields, self.elsewhere,
        )

    # What is asked

    def is_watched(self, name: str) -> bool:
        """Whether what is imported by this dotted name may be of a module that is watched."""
        known = self.asked.imports.get(name)
        if known is None:
            known = self.asked.imports[name] = self._is_watched(name)
        return known

    def is_builtin(self, name: str) -> bool:
        known = self.asked.builtins.get(name)
        if known is None:
            known = self.asked.builtins[name] = hasattr(builtins, name)
        return known

    def is_field(self, name: str) -> bool:
        """Whether some module stores a field of this name."""
        known = self.asked.fields.get(name)
        if known is None:
            known = self.asked.fields[name] = name in STORED_FIELDS
        return known

    def is_stored_elsewhere(self, name: str) -> bool:
        """Whether some module stores a variable of this name in another module."""
        known = self.asked.elsewhere.get(name)
        if known is None:
            known = self.asked.elsewhere[name] = name in STORED_ELSEWHERE
        return known

    # What is found

    def add_field(self, name: str) -> None:
        self.fields.add(name)
        STORED_FIELDS.add(name)

    def add_elsewhere(self, name: str) -> None:
        self.elsewhere.add(name)
        STORED_ELSEWHERE.add(name)

    def new_site(
        self, line: int, function: str, what: str, kinds: str, name: str, text: str, words: Any, undoes: str = "",
    ) -> int:
        if undoes:
            self.undoing[len(self.lines)] = undoes
        self.lines.append(line)
        self.functions.append(function)
        self.accesses.append((what, kinds, name, text, words))
        return self.first + len(self.lines) - 1

    def look_at_number(self, number: int) -> None:
        """A number of the source. All are looked at before there is a site."""
        if self.first <= number < self.first + MOST_SITES:
            self.first = number + 1
