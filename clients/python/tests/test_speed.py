"""What the list of races takes grows with the touches, and not with pairs of tasks; and a bar shows how far it has come."""

from __future__ import annotations

import io
import itertools
import json
import time
import unittest
from collections.abc import Callable, Iterator
from unittest import mock

from itc_trace import Collector, Session, find_races
from itc_trace.analyse import progress
from itc_trace.record.collector import MOST_EVENTS
from itc_trace.model.verdict import END_ROW

MOST_QUESTIONS = 4
"""For each event."""
MOST_SECONDS = 60.0
"""Of a processor. A look at each pair takes many times as long, and a machine that is busy some times."""
LOCK = "#1 lock L (a.py:1)"

Report = tuple[str, str, str | None, int]
"""The request, and the kind, the thing and the line of the journal's row. A hand-over has the lock for its thing."""


def requests(tasks: int) -> Iterator[Report]:
    """A task for each request, none of which is joined. Each takes a lock, and some touch without it."""
    for number in range(1, tasks):
        task = f"t{number}"
        yield f"spawn root {task}", "spawn", None, 1
        if number > 1:
            yield f"recv {task} m{number - 1}", "recv", LOCK, 2
        yield f"local {task}", "write", "stock", 3
        yield f"send {task} m{number}", "send", LOCK, 4
        yield f"local {task}", "write", "stock" if number % 100 == 0 else f"own {number}", 5
        yield f"end {task}", "end", None, 6


def turns(tasks: int) -> Iterator[Report]:
    """Tasks that take a lock by turns, of which each tenth turn touches without it."""
    names = [f"t{number}" for number in range(1, tasks)]
    yield from ((f"spawn root {name}", "spawn", None, 1) for name in names)
    for turn, task in enumerate(itertools.cycle(names)):
        if turn:
            yield f"recv {task} m{turn - 1}", "recv", LOCK, 2
        yield f"local {task}", "write", "stock", 3
        yield f"send {task} m{turn}", "send", LOCK, 4
        if turn % 10 == 0:
            yield f"local {task}", "read", "stock", 5


def unordered(tasks: int) -> Iterator[Report]:
    """Tasks that touch one thing with nothing in between."""
    names = [f"t{number}" for number in range(1, tasks)]
    yield from ((f"spawn root {name}", "spawn", None, 1) for name in names)
    for turn, task in enumerate(itertools.cycle(names)):
        yield f"local {task}", "read" if turn % 3 else "write", "stock", 5 + turn % 3


def row(event: int, report: Report) -> str:
    request, kind, thing, line = report
    is_hand_over = kind in ("send", "recv")
    told = {"event": event, "task": request.split()[1], "thing": None if is_hand_over else thing, "kind": kind, "file": "a.py",
            "line": line, "label": kind, **({"lock": thing} if is_hand_over else {}), **({"held": [LOCK]} if line == 3 else {})}
    return json.dumps(told) + "\n"


class Terminal(io.StringIO):
    def isatty(self) -> bool:
        return True


class Speed(unittest.TestCase):
    def assert_fast(self, told: Callable[[int], Iterator[Report]], tasks: int) -> None:
        reports = list(itertools.islice(told(tasks), MOST_EVENTS))
        with Collector("trace") as collector:
            with Session("trace", collector.port) as session:
                self.assertEqual([reply for reply in session.ask(one[0] for one in reports) if not reply.startswith("201 ")], [])
            journal = [*(row(event, report) for event, report in enumerate(reports, 1)), END_ROW]
            start = time.process_time()
            found = find_races("trace", collector.port, journal)
            self.assertLess(time.process_time() - start, MOST_SECONDS)
        self.assertTrue(found.races)
        self.assertLess(found.questions, MOST_QUESTIONS * len(reports))

    def test_a_task_for_each_of_2046_requests(self) -> None:
        self.assert_fast(requests, 2047)

    def test_2046_tasks_that_hand_a_lock_on(self) -> None:
        self.assert_fast(turns, 2047)

    def test_15000_touches_of_one_thing_by_1000_tasks_that_nothing_orders(self) -> None:
        self.assert_fast(unordered, 1000)

    def test_a_bar_shows_how_far_it_is_on_a_terminal_alone(self) -> None:
        class Answers:
            def ask(self, lines: list[str]) -> Iterator[str]:
                yield from ("200 before" for _ in lines)

        with mock.patch.object(progress, "QUIET_SECONDS", 0.0), mock.patch.object(progress, "BETWEEN", 0.0):
            terminal, file = Terminal(), io.StringIO()
            for stream in (terminal, file):
                self.assertEqual(len(list(progress.Shown(Answers(), progress.Bar(stream)).ask(["order 1 2"] * 4))), 4)
        shown = terminal.getvalue().split("\r")
        self.assertIn(f"itc_trace: [{'#' * 15}{' ' * 15}] 2 of 4 questions", shown)
        self.assertEqual((shown[-1], file.getvalue()), ("\033[K", ""))


if __name__ == "__main__":
    unittest.main()
