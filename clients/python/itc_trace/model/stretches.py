"""What a task touches between two synchronizations: a stretch, which has one set of locks held.

A touch that was noted in this stretch already costs a look into a dictionary. Stretches with no event of their task in
between share one event, which a thread of the package reports.
"""

from __future__ import annotations

import itertools
from _thread import get_ident
from bisect import bisect_right
from collections.abc import Callable, Mapping, Sequence
from types import MappingProxyType
from typing import NamedTuple

from .lines import Stretch


class Site(NamedTuple):
    """A place of the program that touches something."""

    file: str
    line: int
    function: str
    undoes: str = ""
    """How the change there goes with an earlier one of its task, if it does."""


_NOTHING: Mapping[int, str] = MappingProxyType({})


class Sites:
    """The places that are told by their index.

    Those of a module are made when they are asked for, as most never are.
    """

    def __init__(self) -> None:
        self._count = 0
        self._firsts: list[int] = []
        self._modules: list[tuple[str, Sequence[int], Sequence[str], Mapping[int, str]]] = []

    def append(self, site: Site) -> None:
        self.extend(site.file, [site.line], [site.function])

    def extend(
        self, file: str, lines: Sequence[int], functions: Sequence[str], undoing: Mapping[int, str] = _NOTHING,
    ) -> None:
        """Adds places of one file, with those at which something is undone, by their numbers from 0 on."""
        self._modules.append((file, lines, functions, undoing))
        self._firsts.append(self._count)
        self._count += len(lines)

    def __len__(self) -> int:
        return self._count

    def __getitem__(self, number: int) -> Site:
        if not 0 <= number < self._count:
            raise IndexError(number)
        place = bisect_right(self._firsts, number) - 1
        file, lines, functions, undoing = self._modules[place]
        at = number - self._firsts[place]
        return Site(file, lines[at], functions[at], undoing.get(at, ""))


SITES = Sites()


class Across(str):
    """The name of a thing that several processes share. Any other name is of a thing of its own process."""

    __slots__ = ()


class SharedThing(Across):
    """The name of a thing that several processes share, as the package has found it."""

    __slots__ = ()


STRETCHES: dict[int, Stretch] = {}
"""The stretch that each thread is in, by the thread's identity. Before its first touch there is none."""

MOST_OF_STRETCH = 1024
"""Once a stretch has so many touches, its task begins another one where it acquires a lock again."""

TURNS: dict[int, int] = {}
"""Of each thread that runs a loop, which of the loop's callbacks it runs now."""

TURN_NUMBERS = itertools.count(1)
"""Of the turns of loops, for whoever begins one. Two libraries may run tasks in one loop."""


def leave() -> None:
    """Ends the stretch of this thread: what comes next is behind a synchronization."""
    STRETCHES.pop(get_ident(), None)


AT_BORDER: list[Callable[[], None]] = []
"""What is called at the end of each part of a run: what is kept of touches is made shorter."""
