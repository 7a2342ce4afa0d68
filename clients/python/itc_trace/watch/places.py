"""The places of hooks: where in the source each stands, and what it is for."""

from __future__ import annotations

import os
from _thread import allocate_lock
from bisect import bisect_right
from collections import defaultdict
from collections.abc import Mapping
from types import MappingProxyType
from typing import Any

from ..model.file_names import name_of_file
from ..model.stretches import SITES
from .learned import AccessRow


class Access:
    """What a hook is told by its number: what is touched, how, and what was found out about the types that came by."""

    __slots__ = ("what", "kinds", "name", "text", "module", "words", "decided")

    def __init__(self, what: str, kinds: str, name: str, text: str, module: str, words: Any = None) -> None:
        self.what = what
        self.kinds = kinds
        self.name = name
        self.text = text
        self.module = module
        self.words = words
        """What else is known of the place: which fields a method is given, what becomes of what is inside,
        or whether it is made there."""
        self.decided: dict[int, int] = {}


class Accesses(dict[int, Access]):
    """What each hook is told, by the number of its site. That of a module is made when the first hook asks for it."""

    def __init__(self) -> None:
        super().__init__()
        self._firsts: list[int] = []
        self._modules: list[tuple[str, list[AccessRow]]] = []

    def extend(self, first: int, module: str, rows: list[AccessRow]) -> None:
        self._modules.append((module, rows))
        self._firsts.append(first)

    def __missing__(self, site: int) -> Access:
        place = bisect_right(self._firsts, site) - 1
        module, rows = self._modules[place] if place >= 0 else ("", [])
        at = site - self._firsts[place] if rows else 0
        if at >= len(rows):
            raise KeyError(site)
        what, kinds, name, text, words = rows[at]
        return self.setdefault(site, Access(what, kinds, name, text, module, words))


ACCESSES = Accesses()
SKIPPED: dict[int, set[int]] = defaultdict(set)
"""Of each place the types, by identity, for which there is nothing to note."""


MADE_HERE = "made here"
"""Of a view or an iterator that nobody has kept: what it looks at was looked at where it was made."""
OF_BASE = "of the base"
"""Of an attribute by its name that goes past the methods of its class, as `super().__setattr__(name, value)` does."""
LOOPS = "_itc_loops"
"""The name by which modules find the places of loops that began before there was a second task."""
LOOPS_OF: dict[str, list[tuple[int, int, int]]] = {}
"""Of each file its loops: the place of each, and its first and its last line."""
OF_OTHERS = -1
"""In place of that of a loop: something in C may go through what calls the program at each step."""
STATE_OF_PROCESS = "state"
"""Of a place that touches what the library keeps once for all threads."""
DELETED = "deleted"
"""Of a field that is deleted."""
CASES: dict[int, list[Any]] = {}
"""Of each `match` statement that looks at what tasks may share, its cases."""
NAMES_OF_HANDED: dict[tuple[str, int, str], str] = {}
"""How the program calls the container, one of whose methods is an argument of a call, by file, line and method."""

_numbering = allocate_lock()
if hasattr(os, "register_at_fork"):
    os.register_at_fork(after_in_child=_numbering._at_fork_reinit)  # type: ignore[attr-defined]


def new_site(file: str, line: int, function: str, access: Access) -> int:
    """The number of a further site."""
    number = new_sites(file, access.module, [line], [function], [])
    ACCESSES[number] = access
    return number


def new_sites(
    file: str, module: str, lines: list[int], functions: list[str], rows: list[AccessRow],
    undoing: Mapping[int, str] = MappingProxyType({}),
) -> int:
    """The number of the first one of a module's sites. The others follow it.

    Threads that import modules may want some at a time.
    """
    with _numbering:
        first = len(SITES)
        ACCESSES.extend(first, module, rows)
        SITES.extend(name_of_file(file), lines, functions, undoing)
    return first
