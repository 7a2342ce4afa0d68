"""The answer that a run is given: no race in it, races, or that not all of it was seen."""

from __future__ import annotations

import enum
import json
from collections.abc import Iterable
from typing import NamedTuple


class Verdict(enum.IntEnum):
    """The three answers. Each is the status that a command ends with."""

    NO_RACE = 0
    """The whole run was seen, and nothing in it was unordered."""
    RACES = 66
    INCOMPLETE = 67
    """No race was found, and not all of the run was seen."""


class Cause(enum.Enum):
    """Why something of a run was not seen."""

    FULL = "full"
    COLLECTOR = "collector"
    CHILD = "child"
    JOURNAL = "journal"
    MODULE = "module"
    KILLED = "killed"
    TRACER = "tracer"


class Unseen(NamedTuple):
    """Something of the run that was not seen: why, and in words for a person."""

    cause: Cause
    text: str

    def row(self) -> str:
        """The line of a journal that says so."""
        return json.dumps({"unseen": self.cause.value, "text": self.text}, separators=(",", ":")) + "\n"


class PassedOver(NamedTuple):
    """What the program's source does that no hook looks into, and where."""

    what: str
    place: str

    def row(self) -> str:
        """The line of a journal that says so."""
        return json.dumps({"passed_over": self.what, "place": self.place}, separators=(",", ":")) + "\n"


class Left(NamedTuple):
    """What the program leaves at its end, and where that was begun."""

    what: str
    place: str

    def row(self) -> str:
        """The line of a journal that says so."""
        return json.dumps({"left": self.what, "place": self.place}, separators=(",", ":")) + "\n"


MOST_LISTED = 3


def listed(passed_over: Iterable[PassedOver], most: int = MOST_LISTED) -> str:
    """What was not looked into, as the last line says it."""
    words = [f"{one.what} at {one.place}" for one in dict.fromkeys(passed_over)]
    more = f" and {len(words) - most} more" if len(words) > most else ""
    return f"; not looked into: {', '.join(words[:most])}{more}" if words else ""


END_ROW = '{"end":true}\n'
"""The last line of a journal whose process reported all that it noted.

This one does not say how many lines there are.
"""


def end_row(lines: int) -> str:
    """The same, with how many lines the process has written before it."""
    return json.dumps({"end": True, "lines": lines}, separators=(",", ":")) + "\n"


def child_begun_row(tag: str, how: str) -> str:
    """The line that says that a child process has begun, and how and at which place."""
    return json.dumps({"child": tag, "begun": how}, separators=(",", ":")) + "\n"


def child_ended_row(tag: str, lines: int = 0) -> str:
    """The last line of a child process that reported all that it noted,
    and how many lines it has written with this one."""
    return json.dumps({"child": tag, "ended": True, "lines": lines}, separators=(",", ":")) + "\n"


END_OF_ALL = '{"end":true,"task":null}\n'
"""The last line of several journals put together. Which of the processes have ended is told by the lines before it."""

BREAKS_OFF = Unseen(Cause.JOURNAL, "the journal breaks off before the end of its process")
REMOVED = Unseen(Cause.JOURNAL, "the journal breaks off: the program has removed its file")


def verdict_of(failing: int, unseen: Iterable[Unseen]) -> Verdict:
    """The answer to a run, by the number of races that count and by what was not seen."""
    if failing:
        return Verdict.RACES
    return Verdict.INCOMPLETE if any(True for _ in unseen) else Verdict.NO_RACE


def reasons(unseen: Iterable[Unseen]) -> str:
    """Why a verdict is incomplete, in one line. What is said twice is said once."""
    return "; ".join(dict.fromkeys(one.text for one in unseen))
