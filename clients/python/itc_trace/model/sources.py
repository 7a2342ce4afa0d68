"""What a list of findings shows besides: source lines, which a journal has kept or which are here, and whole names."""

from __future__ import annotations

import linecache
from collections.abc import Collection, Mapping
from dataclasses import dataclass, field

LINES_AROUND = 3
MOST_LETTERS = 160
"""A longer line of source is cut off here, but the line of the place itself."""


@dataclass
class Sources:
    """The lines by their file and their number."""

    kept: dict[str, dict[int, str]] = field(default_factory=dict)
    processes: dict[str, str] = field(default_factory=dict)
    """The whole name of each process, by what the names of its tasks begin with."""
    paths: dict[str, str] = field(default_factory=dict)
    """Where each file was found, if its name does not lead there."""

    tests: dict[str, str] = field(default_factory=dict)
    """The test that each task is of, if it is of one."""

    def task(self, name: str) -> str:
        """The name of a task, with that of its process in full."""
        tag, line, rest = name.partition("_")
        return f"{self.processes.get(tag, tag)}{line}{rest}"

    def tests_of(self, tasks: Collection[str]) -> tuple[str, ...]:
        """The tests that these tasks are of, in the order in which they began."""
        return tuple(dict.fromkeys(test for task, test in self.tests.items() if task in tasks))

    def add(self, file: str, lines: Mapping[int, str]) -> None:
        self.kept.setdefault(file, {}).update(lines)

    def line(self, file: str, number: int) -> str:
        """The line without its end. It is empty where it is not known."""
        kept = self.kept.get(file)
        if kept is not None and number in kept:
            return kept[number]
        return linecache.getline(self.path(file) or file, number).rstrip("\r\n") if file and number > 0 else ""

    def path(self, file: str) -> str:
        """Where the file was found. Empty if its name leads there, or if it was not."""
        return self.paths.get(file, "")

    def around(self, file: str, number: int) -> tuple[int, tuple[str, ...]]:
        """The number of the first line, and the lines around one that is known. Else there are none."""
        if not self.line(file, number):
            return 0, ()
        begin = max(1, number - LINES_AROUND)
        lines = [self.line(file, one) for one in range(begin, number + LINES_AROUND + 1)]
        while lines and not lines[-1]:
            lines.pop()
        cut = (line if begin + place == number else line[:MOST_LETTERS] for place, line in enumerate(lines))
        return begin, tuple(cut)
