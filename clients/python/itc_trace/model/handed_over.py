"""What a command and the process of its program hand to each other: words, names of files, and what a run is to try.

The command reads this without the modules that trace.
"""

from __future__ import annotations

from typing import NamedTuple

REFUSED, RAISED = "refused", "raised"
"""What `run` is told of a program that did not run to its end."""
TOLD = ".told"
"""Behind the name of the file: there is a letter once the program can be asked, and then one for each answer."""
CHILDREN = ".children"
"""Behind the name of the file: it is there if child processes answer, too."""
NOT = "!"
"""Begins the pattern of files that are not watched, among the names of packages that are."""


def excluding(pattern: str) -> str:
    """The pattern, as it stands among the names of packages."""
    return f"{NOT}{pattern}"


OF_SHARED = "@"
"""In front of a line at which tasks are held as they touch what processes share."""


class Plan(NamedTuple):
    """What one run is to try."""

    pairs: list[tuple[str, str]]
    """The two lines of each race that is possible, as `shop.py:7`, or `@shop.py:7` if it is of what processes share."""
    held: list[str]
    """The lines at which tasks are held."""
    is_exact: bool
    """Whether two that touch different objects do not meet."""
    gates: list[tuple[str, str]] = []
    """Locks that are held at one of the lines alone, by their names, each with the other line."""
