"""The journal of a run in parts is looked at in bounded memory, by one process or by several, and what is lost is told."""

from __future__ import annotations

import contextlib
import json
import os
import re
import resource
import signal
import subprocess
import sys
import tempfile
import time
import unittest
from collections import defaultdict
from pathlib import Path
from random import Random
from unittest import mock

from itc_trace import Collector, Races, Session, Verdict
from itc_trace.analyse import distinct, lasting, parts_beside
from itc_trace.analyse.across_parts import AcrossParts
from itc_trace.analyse.distinct import Distinct
from itc_trace.analyse.divided_journal import divided
from itc_trace.analyse.lasting import LastingFinder, LastingThings
from itc_trace.analyse.parts import races_of_parts
from itc_trace.analyse.races import find_races
from itc_trace.analyse.trace import Trace
from itc_trace.model.digests import number_of
from itc_trace.model.verdict import END_ROW, Cause
from itc_trace.record.dividing import Divider, Report
from itc_trace.record.journal import Row, border_row

from .support import run_python

NEVER, ALWAYS = 1 << 62, 0
"""Sizes of a journal from which on its parts are looked at beside each other."""
SITE = '{"site":"1","file":"b.py","line":9,"function":"f"}\n'
PEAK = """
import sys
from itc_trace.analyse.parts import races_of_parts
from itc_trace.analyse.trace import Trace
found = races_of_parts(sys.argv[1])
assert not found.unseen and len(found.races) == 1, (found.unseen, found.races)
peak = next(line.split()[1] for line in open("/proc/self/status") if line.startswith("VmHWM"))
print(int(peak) // 1024, found.things)
"""


def line_of(row: Row) -> str:
    """As a process writes it."""
    told = {"event": row.event, "part": row.part, "task": row.task, "thing": row.thing}
    return json.dumps({**told, **{key: value for key, value in row._asdict().items() if key not in told and value}} | {
        "file": row.file, "line": row.line, "label": row.label,
    }, separators=(",", ":")) + "\n"


def aside(thing: str, *rows: tuple[int, int, str]) -> str:
    told = [[event, part, task, "write", "1", [], 0, 0] for event, part, task in rows]
    return json.dumps({"aside": thing, "name": thing, "group": "g", "made": "", "rows": told}, separators=(",", ":")) + "\n"


class Journal:
    """Two tasks, each of which reads things of its own in each part, and meets the other one at its end.

    In the last part both change one thing. The root waits all the time, and knows of nothing.
    """

    def __init__(self, parts: int, things: int, meet: bool = True) -> None:
        self._divider = Divider()
        self.lines: list[str] = []
        self.part = 1
        for task in "ab":
            self._report("spawn", "root", task)
        for part in range(1, parts + 1):
            for number in range(things):
                self._touch("ab"[number % 2], f"#{part * things + number}", "read")
                if number % 4 == 0 and part > 1:
                    self._touch("ab"[number % 2], f"#{(part - 1) * things + number}", "read")
            if part < parts:
                if meet:
                    self._meet()
                self._divide()
        for task in "ab":
            self._touch(task, "#1", "write")
        self.lines.append(END_ROW)

    def _report(self, kind: str, task: str, name: str) -> None:
        event = self._divider.report(Report(kind, task, name))
        self.lines.append(line_of(Row(event, task, None, kind, "a.py", 7, "", part=self.part, of=name)))

    def _meet(self) -> None:
        """From here on both know what the other one has done."""
        for one, other in ("ab", "ba"):
            message = f"m{self.part}{one}"
            self._report("send", one, message)
            self._report("recv", other, message)

    def _touch(self, task: str, thing: str, kind: str) -> None:
        event = self._divider.report(Report("local", task, ""))
        self.lines.append(line_of(Row(event, task, thing, kind, "a.py", 7, "", thing, "g", part=self.part)))

    def _divide(self) -> None:
        border = self._divider.divide(lambda name: False, lambda name: False)
        self.part += 1
        self.lines.append(border_row(self.part, border))
        for event, one in enumerate(border.reports, 1):
            self.lines.append(line_of(Row(event, one.task, None, one.kind, None, 0, "goes on", part=self.part, of=one.name)))

    def written(self, folder: str) -> str:
        path = os.path.join(folder, "journal")
        Path(path).write_text("".join(self.lines), encoding="utf-8")
        return path


class InFolder(unittest.TestCase):
    def setUp(self) -> None:
        work = tempfile.TemporaryDirectory()
        self.addCleanup(work.cleanup)
        self.folder = work.name

    def looked_at(self, journal: Journal, beside: bool = False) -> Races:
        with mock.patch.object(parts_beside, "FEWEST_BYTES", ALWAYS if beside else NEVER):
            with mock.patch.object(os, "sched_getaffinity", lambda _: {0, 1, 2}):
                return races_of_parts(journal.written(self.folder))


class Counts(InFolder):
    """How many things and places there are."""

    def test_what_a_process_has_counted_stands_in_place_of_its_rows(self) -> None:
        for beside in (False, True):
            journal = Journal(3, 20)
            journal.lines = [re.sub(r'"thing":"(#\d*[02468])"', r'"thing":"\1 of java"', line) for line in journal.lines]
            journal.lines.insert(-1, '{"looked_at":"java","things":7,"places":9}\n')
            found = self.looked_at(journal, beside)
            self.assertEqual((found.things, found.places, found.unseen), (31 + 7, 31 + 9, []), beside)

    def test_it_does_so_in_a_run_of_one_part_and_its_last_word_counts(self) -> None:
        touches = [("x of java", "x"), ("y of java", "y"), ("y of java", "y"), ("z of java", ""), ("x of python", "x")]
        rows = [line_of(Row(1, "a", thing, "read", "a.py", 7, "", name)) for thing, name in touches]
        told = [f'{{"looked_at":"java","things":{count},"places":{count + 2}}}\n' for count in (4, 5)]
        found = find_races("t", 0, [*rows, *told, END_ROW])
        self.assertEqual((found.things, found.places, found.unseen), (5 + 2, 7 + 2, []))


class Memory(InFolder):
    def test_it_does_not_grow_with_the_things_of_a_run(self) -> None:
        """What was kept of each thing would take 60 MB."""
        peaks = []
        for parts in (8, 40):
            path = Journal(parts, 2500).written(self.folder)
            ran = run_python("-c", PEAK, path)
            self.assertEqual(ran.returncode, 0, ran.stderr)
            peak, things = map(int, ran.stdout.split())
            self.assertEqual(things, parts * 2500 + 1)
            peaks.append(peak)
        self.assertLess(peaks[1] - peaks[0], 5, peaks)

    def test_different_ones_are_counted_in_files_as_in_memory(self) -> None:
        values = [(number * number) % 1009 for number in range(5000)]
        for most in (10, 100, 1 << 14):
            with mock.patch.object(distinct, "MOST_IN_MEMORY", most), Distinct() as counted:
                for first in range(0, len(values), 7):
                    counted.add(number_of(f"{value}") for value in values[first:first + 7])
                    if first == 3500:
                        self.assertEqual(counted.count(), len(set(values[:3507])))
                self.assertEqual(counted.count(), len(set(values)))


class Lasting(InFolder):
    """Touches are kept for later parts as long as one of them touches the thing."""

    def test_the_parts_of_a_thing_are_those_of_its_rows(self) -> None:
        chance = Random(1)
        for most in (1, 10, 1 << 14):
            parts: dict[str, set[int]] = defaultdict(set)
            with tempfile.TemporaryDirectory() as folder, mock.patch.object(lasting, "MOST_IN_MEMORY", most):
                with contextlib.closing(LastingFinder(folder)) as finder:
                    for _ in range(1000):
                        thing, part = f"#{chance.randrange(300)}", chance.randrange(1, 9)
                        parts[thing].add(part)
                        finder.add(thing, part)
                    finder.write()
                things = LastingThings(folder)
                for part in range(10):
                    go_on = {number_of(thing) for thing, of in parts.items() if part in of and part < max(of)}
                    are_over = {number_of(thing) for thing, of in parts.items() if min(of) < part == max(of)}
                    self.assertEqual((things.go_on(part), things.are_over(part)), (go_on, are_over), (most, part))

    def test_a_read_is_kept_as_long_as_its_task_may_write_it_back(self) -> None:
        across, trace = AcrossParts(), Trace.__new__(Trace)
        rows = [Row(1, task, "#1", "read", "a.py", 1, "", "x", loop=1, turn=1) for task in "abc"]
        self.assertEqual(list(across.unseen_turns(rows, trace)), [])
        across.end_tasks({"a", "c"})
        self.assertEqual(list(across._reads), [("#1", "b")])

    def test_a_touch_that_was_put_aside_races_with_one_of_a_later_part(self) -> None:
        """The first one lies at the end of the journal, and is of the first part."""
        for parts in (2, 3, 5):
            for thing, races in (("#1", 2), ("#none", 1)):
                journal = Journal(parts, 20, meet=False)
                journal.lines[-1:] = [SITE, aside(thing, (3, 1, "a")), END_ROW]
                found = self.looked_at(journal)
                told = sorted((row.event, row.part) for race in found.races for row in race.example if row.file == "b.py")
                self.assertEqual((len(found.races), told), (races, [(3, 1)] * (races - 1)), (parts, thing))


class Rows(InFolder):
    """Which rows count, of what was put aside and of the others."""

    def rows(self, *lines: str) -> tuple[list[Row], list[Cause]]:
        folder = tempfile.mkdtemp(dir=self.folder)
        path = Path(folder, "journal")
        path.write_text("".join([*lines, END_ROW]), encoding="utf-8")
        parts = divided(str(path), folder)
        return list(parts.all_rows()), [one.cause for one in parts.told.unseen]

    def test_what_was_put_aside_counts_where_another_task_touches_the_thing(self) -> None:
        own = line_of(Row(2, "a", "#1", "write", "a.py", 1, "", name="x"))
        others = own.replace('"a"', '"b"', 1)
        for lines, events in (
            ([SITE, aside("#1", (1, 1, "a"))], []),
            ([SITE, aside("#1", (1, 1, "a")), own], []),
            ([SITE, aside("#1", (1, 1, "a")), others], [2, 1]),
            ([others, SITE, aside("#2", (5, 1, "a")), aside("#1", (1, 1, "a"), (3, 1, "a"))], [2, 1, 3]),
            ([SITE, aside("#1", (1, 1, "a")), aside("#1", (4, 1, "b")), own], [2, 1, 4]),
            ([own, others], [2, 2]),
        ):
            rows, unseen = self.rows(*lines)
            self.assertEqual(([row.event for row in rows], unseen), (events, []), lines)

    def test_names_and_parts_are_found_wherever_they_stand(self) -> None:
        name = 'a "\u00e4\\"'
        row = Row(1, name, name, "write", "a.py", 1, "", name="x", part=3)
        begin, part = line_of(row)[:-2], '"part":3,'
        for line in (line_of(row), begin.replace(part, "") + ',"part":3}\n', json.dumps(row._asdict()) + "\n"):
            border = '{"border":3,"positions":[[1,1]],"tasks":[1]}\n'
            rows, unseen = self.rows(SITE, border, aside(name, (7, 2, "other")), line)
            self.assertEqual([(one.event, one.part, one.task, one.thing) for one in rows], [(7, 2, "other", name), (1, 3, name, name)])
            self.assertEqual(unseen, [])

    def test_a_line_that_is_no_row_is_told(self) -> None:
        whole = line_of(Row(1, "a", "#1", "write", "a.py", 1, "", name="x"))
        strange = '{"rows":[[1,1,"a","write","1",[],0,0]],"aside":"#1","name":"","group":"","made":""}\n'
        self.assertEqual(self.rows(whole, strange)[1], [Cause.JOURNAL])
        self.assertEqual(self.rows(whole, aside("#1").replace("[]", "[[1]]"))[1], [Cause.JOURNAL])
        self.assertEqual(self.rows(whole, f"{whole[:60]}\n")[1], [Cause.JOURNAL])

    def test_rows_of_which_two_came_into_one_line_are_told(self) -> None:
        journal = Journal(2, 20)
        journal.lines.insert(7, journal.lines[5][:-2] + journal.lines[6])
        found = self.looked_at(journal)
        self.assertEqual([one.text for one in found.unseen], ["1 lines of part 1 of the journal are none"])
        self.assertEqual(len(found.races), 1)
        del journal.lines[5]
        self.assertEqual(self.looked_at(journal).verdict(), Verdict.INCOMPLETE)

    def test_a_part_without_a_border_is_told(self) -> None:
        journal = Journal(3, 20)
        journal.lines = [line for line in journal.lines if not line.startswith('{"border":3')]
        (unseen,) = self.looked_at(journal).unseen
        self.assertIn("it has no border", unseen.text)


class Beside(InFolder):
    """Parts that several processes look at."""

    def told(self, found: Races) -> tuple[object, ...]:
        return found.text(), [race.finding() for race in found.races], found.unseen, found.questions

    def test_what_is_told_is_the_same_as_in_turn(self) -> None:
        for parts in (1, 2, 3, 4, 7):
            journal = Journal(parts, 20)
            found = self.looked_at(journal, beside=True)
            self.assertEqual(self.told(found), self.told(self.looked_at(journal)), parts)
            self.assertEqual((len(found.races), found.things), (1, parts * 20 + 1))

    def test_a_part_that_cannot_be_looked_at_is_told(self) -> None:
        for lost in (1, 30, 100):
            journal = Journal(5, 20)
            del journal.lines[lost]
            beside, in_turn = self.looked_at(journal, beside=True), self.looked_at(journal)
            self.assertEqual(beside.unseen, in_turn.unseen, lost)
            self.assertEqual(beside.verdict(), Verdict.INCOMPLETE)

    def test_a_tenant_that_has_the_last_part_may_have_more_than_the_journal(self) -> None:
        """As where the process was killed before it had written all rows."""
        journal = Journal(3, 20)
        requests = divided(journal.written(self.folder), tempfile.mkdtemp(dir=self.folder)).part(3).requests()
        del journal.lines[-12]
        path = journal.written(self.folder)
        with Collector("trace") as collector, Session("trace", collector.port) as session:
            list(session.ask(requests))
            session.close()
            for least in (ALWAYS, NEVER):
                with mock.patch.object(parts_beside, "FEWEST_BYTES", least), mock.patch.object(os, "sched_getaffinity", lambda _: {0, 1}):
                    found = races_of_parts(path, last=("trace", collector.port))
                self.assertEqual((len(found.races), found.unseen), (1, []), least)

    def test_what_a_process_that_ends_does_not_look_at_is_looked_at_all_the_same(self) -> None:
        """As where there is no memory for several of them."""
        due = self.told(self.looked_at(Journal(5, 20)))
        dies = "import os; os._exit(1)"
        slow = f"import os, sys, time; sys.stdin.buffer.read(1); time.sleep(0.2); {dies}"
        for program in (dies, slow, "raise SystemExit"):
            with mock.patch.object(parts_beside, "PROGRAM", program):
                found = self.looked_at(Journal(5, 20), beside=True)
            self.assertEqual(self.told(found), due, program)

    def test_they_end_with_whoever_has_begun_them(self) -> None:
        path = Journal(200, 300).written(self.folder)
        program = f"from itc_trace.analyse import parts, parts_beside; parts_beside.FEWEST_BYTES = 0; parts.races_of_parts({path!r})"
        for number in (signal.SIGKILL, signal.SIGINT):
            asking = subprocess.Popen([sys.executable, "-c", program], stderr=subprocess.DEVNULL)
            try:
                children = self.wait_for_children(asking.pid)
            finally:
                asking.send_signal(number)
                asking.wait()
            end = time.monotonic() + 20
            while any(Path(f"/proc/{one}").exists() for one in children) and time.monotonic() < end:
                time.sleep(0.02)
            self.assertEqual([one for one in children if Path(f"/proc/{one}").exists()], [])

    def wait_for_children(self, process: int) -> list[int]:
        end = time.monotonic() + 20
        while time.monotonic() < end:
            children = [int(one) for one in Path(f"/proc/{process}/task/{process}/children").read_text().split()]
            if len(children) > 1:
                return children
            time.sleep(0.01)
        self.fail("no process was begun")


class NoRoom(InFolder):
    """A disk without room for what is looked at. A limit of the size of files stands for it."""

    def limited(self, path: str, bytes_of_file: int) -> subprocess.CompletedProcess[str]:
        return subprocess.run(
            [sys.executable, "-m", "itc_trace", "races", path], capture_output=True, text=True, check=False,
            env={**os.environ, "PYTHONPATH": os.pathsep.join(sys.path)},
            preexec_fn=lambda: resource.setrlimit(resource.RLIMIT_FSIZE, (bytes_of_file, bytes_of_file)),
        )

    def test_parts_that_cannot_be_written_are_no_all_clear(self) -> None:
        path = Journal(3, 2000).written(self.folder)
        ran = self.limited(path, 100_000)
        self.assertEqual(ran.returncode, Verdict.INCOMPLETE, ran.stderr)
        self.assertIn("the journal cannot be looked at part by part: File too large", ran.stdout + ran.stderr)
        self.assertNotIn("Traceback", ran.stderr)
        self.assertEqual(self.limited(path, 1 << 30).returncode, Verdict.RACES)


if __name__ == "__main__":
    unittest.main()
