"""A task that has many children has nurseries spawn them, and that changes no order."""

from __future__ import annotations

import json
import random
import tempfile
import unittest
from collections import deque
from collections.abc import Callable
from pathlib import Path
from typing import Any
from unittest import mock

from itc_trace.analyse.parts import collected
from itc_trace.model.lines import END, FINISH, GONE, JOIN, MARK, QUEUE, SPAWN, TAKE, TAKE_END, Line, Note, Token
from itc_trace.processes.relay_parts import RelayParts
from itc_trace.record import dividing, nurseries
from itc_trace.record.dividing import Divider, Report
from itc_trace.record.names import Names
from itc_trace.record.nurseries import Nurseries
from itc_trace.record.order_of_tasks import OrderOfTasks

RUNS = 300
RUNS_OF_THE_COLLECTOR = 4


class Answer:
    may_be_refused = False


class Reported:
    """Takes over what is reported, and knows what comes before what by looking at all of it."""

    def __init__(self) -> None:
        self.requests: list[str] = []
        self.time = 0.0
        self._reach: list[int] = [0]
        self._last: dict[str, int] = {}
        self._sent: dict[str, int] = {}
        self._ended: set[str] = set()
        self.most_children = 0
        self._children: dict[str, int] = {}

    def report(self, line: Line, kind: str, name: str, *_: Any) -> Answer:
        line.count += 1
        line.message = None
        if line.name in self._ended:
            raise AssertionError(f"{line.name} goes on behind its end")
        before = {"recv": self._sent, "join": self._last}.get(kind, {}).get(name, 0)
        if kind == "join" and name not in self._ended or kind == "recv" and not before:
            raise AssertionError(f"{kind} {name} comes too soon")
        self._note(kind, line.name, name, [self._last.get(line.name, 0), before])
        return Answer()

    def _note(self, kind: str, task: str, name: str, sources: list[int]) -> None:
        number = len(self._reach)
        self.requests.append(f"{kind} {task} {name}".strip())
        self._reach.append(0)
        for source in filter(None, sources):
            self._reach[number] |= self._reach[source] | 1 << source
        self._last[task] = number
        if kind == "spawn":
            self._last[name] = number
            self._children[task] = self._children.get(task, 0) + 1
            self.most_children = max(self.most_children, self._children[task])
        elif kind == "send":
            self._sent[name] = number
        elif kind == "end":
            self._ended.add(task)

    def is_before(self, first: int, second: int) -> bool:
        return bool(self._reach[second] >> first & 1)


class Program:
    """Some tasks that do things at random. What each of them knows of the touches is kept beside it."""

    prefix = ""
    most_lines = 1000

    def __init__(self, seed: int, steps: int = 120) -> None:
        self.chance = random.Random(seed)
        self.reported = Reported()
        self.main = Line(None, "root")
        self.main.name = "root"
        self.order = OrderOfTasks(self, self.reported, Names(""), None, self._fail)  # type: ignore[arg-type]
        self._live = [self.main]
        self._over: list[Line] = []
        self._known: dict[Line, int] = {self.main: 0}
        self._tokens: list[tuple[Token, int]] = []
        self.touches: list[tuple[int, int]] = []
        """The event of each touch, and the touches that come before it."""
        acts = [self._touch] * 3 + [self._spawn] * 4 + [self._mark] + [self._take, self._end, self._wait] * 2 + [self._let_go]
        for _ in range(steps):
            self.chance.choice(acts)(self.chance.choice(self._live))
        self.order.end_finished()

    def _fail(self, *words: Any) -> None:
        raise AssertionError(words)

    def _handle(self, handler: Callable[..., Any], *note: Any) -> None:
        noted: Note = note
        self.order.look_ahead(deque([(0.0, noted)]))
        handler(*note[1:])
        self.order.looked_at()

    def _touch(self, line: Line) -> None:
        self.order.leave(line)
        self.reported.report(line, "local", "")
        self.touches.append((len(self.reported.requests), self._known[line]))
        self._known[line] |= 1 << len(self.touches) - 1

    def _spawn(self, line: Line) -> None:
        if len(self._known) < 60:
            child = Line(None, "task#")
            self._handle(self.order.spawn, SPAWN, line, child, None, 0)
            self._known[child] = self._known[line]
            self._live.append(child)

    def _mark(self, line: Line) -> None:
        token = Token(line, QUEUE, None, 0)
        self._handle(self.order.mark, MARK, token)
        self._tokens.append((token, self._known[line]))

    def _take(self, line: Line) -> None:
        if self._tokens:
            token, known = self.chance.choice(self._tokens)
            self._handle(self.order.take, TAKE, line, token, None, 0)
            self._known[line] |= known

    def _end(self, line: Line) -> None:
        if line is not self.main and self.chance.random() < 0.7:
            self._handle(self.order.finish, FINISH, line, self.chance.random() < 0.6)
            self._live.remove(line)
            self._over.append(line)

    def _wait(self, line: Line) -> None:
        if not self._over:
            return
        other = self.chance.choice(self._over)
        is_thread = other.end_token is not None and other.end_token.what is END
        if is_thread and self.chance.random() < 0.5:
            self._handle(self.order.join, JOIN, line, other, None, 0)
        else:
            self._handle(self.order.take_end, TAKE_END, line, other, None, 0)
        self._known[line] |= self._known[other]

    def _let_go(self, _: Line) -> None:
        """Nobody can wait for a task any more. What it has given may still be taken."""
        if self._over:
            self._handle(self.order.gone, GONE, self._over.pop(self.chance.randrange(len(self._over))))

    def wrong(self) -> list[tuple[int, int]]:
        """The pairs of touches whose order the reports do not tell as it is."""
        return [
            (first, second) for second, (event, known) in enumerate(self.touches) for first, (other, _) in enumerate(self.touches[:second])
            if self.reported.is_before(other, event) != bool(known >> first & 1)
        ]


def small() -> Any:
    return mock.patch.multiple(nurseries, FEW=2, PLACES=3)


class SameOrder(unittest.TestCase):
    def test_nurseries_tell_what_plain_reachability_tells(self) -> None:
        with small():
            programs = [Program(seed) for seed in range(RUNS)]
        for seed, program in enumerate(programs):
            self.assertEqual(program.wrong(), [], f"seed {seed}")
        self.assertGreater(sum("nursery" in request for program in programs for request in program.reported.requests), 20 * RUNS)

    def test_the_collector_takes_the_reports_and_tells_the_same(self) -> None:
        with small():
            programs = [Program(seed) for seed in range(RUNS_OF_THE_COLLECTOR)]
        for program in programs:
            with collected(program.reported.requests) as view:
                pairs = [(other, event, bool(known >> first & 1)) for event, known in program.touches
                         for first, (other, _) in enumerate(program.touches) if other < event]
                told = [reply == "200 before" for reply in view.ask(f"order {one} {other}" for one, other, _ in pairs)]
            self.assertEqual(told, [is_before for _, _, is_before in pairs])

    def test_a_task_spawns_few_of_many_children_itself(self) -> None:
        program = Program(1, 0)
        for _ in range(800):
            program.order.spawn(program.main, Line(None, "task#"), None, 0)
        self.assertLessEqual(program.reported.most_children, nurseries.FEW + 800 // nurseries.PLACES)

    def test_a_nursery_ends_behind_its_tasks(self) -> None:
        program = Program(1, 0)
        for _ in range(50):
            children = [Line(None, "task#") for _ in range(nurseries.FEW + nurseries.PLACES)]
            for child in children:
                program.order.spawn(program.main, child, None, 0)
            for child in children:
                program.order.end(child, "end")
                program.order._join_now(program.main, child, None, 0, "join")
        self.assertEqual(program.main.children, 0)
        self.assertEqual(len([one for one in program.reported.requests if one.startswith("end itc_nursery")]), 50)

    def test_few_children_need_no_nursery(self) -> None:
        program = Program(1, 0)
        for _ in range(300):
            child = Line(None, "task#")
            program.order.spawn(program.main, child, None, 0)
            program.order.end(child, "end")
            program.order._join_now(program.main, child, None, 0, "join")
        self.assertFalse([one for one in program.reported.requests if "nursery" in one])


_spawn, _nursery_of, _joined = Nurseries.spawn, Nurseries._nursery_of, Nurseries.joined


def _tells_nothing_later(self: Nurseries, parent: Line, child: Line, code: Any, instruction: int) -> Any:
    """The nursery knows what its task knew when it was made."""
    if parent.children < nurseries.FEW:
        return _spawn(self, parent, child, code, instruction)
    child.starter = self._nursery_of(parent)
    self._open[child.starter] += 1
    return self._reports.report(child.starter, "spawn", child.name, code, instruction, "")


def _has_one_for_all(self: Nurseries, parent: Line) -> Line:
    """Several tasks have one nursery."""
    shared = [nursery for nursery, count in self._open.items() if count < nurseries.PLACES]
    return shared[0] if shared else _nursery_of(self, parent)


def _waits_for_its_tasks(self: Nurseries, line: Line, child: Line) -> None:
    """The nursery comes after what whoever joins its task knows."""
    nursery = child.starter
    _joined(self, line, child)
    if nursery in self._open:
        message = f"wrong_{self._next_number()}"
        self._reports.report(line, "send", message, None, 0, "")
        self._reports.report(nursery, "recv", message, None, 0, "")


class WrongRules(unittest.TestCase):
    """Each of these rules is caught, else the test above says nothing."""

    def test_each_is_caught(self) -> None:
        for name, rule in (("spawn", _tells_nothing_later), ("_nursery_of", _has_one_for_all), ("joined", _waits_for_its_tasks)):
            with self.subTest(rule=rule.__doc__), small(), mock.patch.object(Nurseries, name, rule):
                self.assertTrue(any(Program(seed).wrong() for seed in range(40)))


class Borders(unittest.TestCase):
    """What a part begins with is spawned by nurseries, too, if it is much."""

    def border(self, tasks: int) -> list[Report]:
        divider = Divider()
        for number in range(tasks):
            divider.report(Report("spawn", "root", f"t{number}"))
        divider.divide(lambda _: False, lambda _: False)
        return divider.divide(lambda _: False, lambda _: False).reports

    def test_a_wide_border_has_nurseries_that_are_not_taken_along(self) -> None:
        reports = self.border(200)
        spawns = [report for report in reports if report.kind == "spawn"]
        self.assertEqual(len(spawns), 200 + len([report for report in spawns if report.name.startswith(dividing.NURSERY)]))
        self.assertLessEqual(max(len([one for one in spawns if one.task == report.task]) for report in spawns), dividing.WIDE)
        self.assertEqual(len([report for report in reports if report.kind == "local"]), 201)

    def test_a_narrow_one_has_none(self) -> None:
        self.assertFalse([report for report in self.border(dividing.WIDE) if dividing.NURSERY in report.request])

    def test_a_wide_border_of_a_relay_has_them_too(self) -> None:
        with tempfile.TemporaryDirectory() as folder:
            parts = RelayParts(lambda: 1, f"{folder}/journal")
            for number in range(1, 201):
                parts.answered(f"spawn root t{number}".encode(), b"201 %d" % number)
            _, lines = parts.divide()
            rows = [json.loads(row) for row in Path(folder, "journal").read_text().splitlines()]
        spawns = [line.decode().split()[1] for line in lines if line.startswith(b"spawn ")]
        self.assertLessEqual(max(map(spawns.count, spawns)), dividing.WIDE)
        self.assertEqual([row["event"] for row in rows if row.get("kind") == "spawn"], [
            number for number, line in enumerate(lines, 1) if line.startswith(b"spawn ")])

    def test_no_nursery_takes_the_name_of_a_task(self) -> None:
        divider = Divider()
        for number in range(100):
            divider.report(Report("spawn", "root", f"{dividing.NURSERY}_{number}"))
        spawned = [report.name for report in divider.divide(lambda _: False, lambda _: False).reports if report.kind == "spawn"]
        self.assertEqual(len(set(spawned)), len(spawned))


if __name__ == "__main__":
    unittest.main()
