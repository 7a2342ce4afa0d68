"""Tasks that start others for a task that has many.

Each task that a task starts halves what is left of its identity in the clock. So of many that live, the last ones have
long identities, and long stamps. From some number on a task has *nurseries*: tasks of which each spawns some for it. A
nursery receives a message of its task before each spawn, and does nothing else. `docs/long-runs.md` has the proof that
this orders nothing else.
"""

from __future__ import annotations

from collections.abc import Callable
from types import CodeType

from ..model.lines import Line, Reporter
from .names import Names
from .reports import Outstanding, Reports

FEW = 32
"""So many children of a task may live that it has spawned itself."""
PLACES = 32
"""So many tasks a nursery spawns."""
NURSERY = "itc_nursery#"
ROOM_OF_NURSERY = "place"
"""So begin the names of the messages to nurseries."""


class Nurseries:
    """Spawns tasks, and keeps how many of each task's children nobody has joined yet."""

    def __init__(self, reporter: Reporter, reports: Reports, names: Names, next_number: Callable[[], int]) -> None:
        self._reporter = reporter
        self._reports = reports
        self._names = names
        self._next_number = next_number
        self._open: dict[Line, int] = {}
        """How many tasks each nursery has spawned, as long as it has not ended."""

    def spawn(self, parent: Line, child: Line, code: CodeType | None, instruction: int) -> Outstanding:
        """Reports that the task starts the other one."""
        label, starter = f"start {child.name}", parent
        if parent.children >= FEW and not child.is_process:
            starter = self._nursery_of(parent)
            message = f"{self._reporter.prefix}{ROOM_OF_NURSERY}_{self._next_number()}"
            self._reports.report(parent, "send", message, code, instruction, label)
            self._reports.report(starter, "recv", message, None, 0, label)
            self._open[starter] += 1
        starter.children += 1
        child.starter = starter
        return self._reports.report(starter, "spawn", child.name, code, instruction, label)

    def _nursery_of(self, parent: Line) -> Line:
        """The nursery of the task that has a place left."""
        nursery = parent.nursery
        if nursery is None or self._open.get(nursery, PLACES) >= PLACES:
            nursery = parent.nursery = Line(self._reporter, NURSERY)
            nursery.name = self._names.new(NURSERY)
            nursery.parent, nursery.starter = parent, parent
            parent.children += 1
            self._open[nursery] = 0
            self._reports.report(parent, "spawn", nursery.name, None, 0, f"start {nursery.name}")
        return nursery

    def joined(self, line: Line, child: Line) -> None:
        """The line has joined the child. A nursery ends behind the last of its tasks, if its own task joins that."""
        starter, child.starter = child.starter, None
        if starter is None:
            return
        starter.children -= 1
        is_over = not starter.children and self._open.get(starter, 0) >= PLACES
        if is_over and starter.parent is line:
            self._end(starter)
            self._reports.report(line, "join", starter.name, None, 0, f"join {starter.name}")
            line.children -= 1

    def _end(self, nursery: Line) -> None:
        del self._open[nursery]
        if nursery.parent is not None and nursery.parent.nursery is nursery:
            nursery.parent.nursery = None
        self._reports.report(nursery, "end", "", None, 0, "end")

    def end(self) -> None:
        """At the end of a part: the next one needs none of them."""
        for nursery in list(self._open):
            self._end(nursery)
