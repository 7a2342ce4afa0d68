"""Each program of `programs` is run, and what the run says is what is due by the program's own text.

ITC_PROGRAM_RUNS says how often each is run, once where it is not set. ITC_PROGRAMS is a pattern of the names of those to run. Most runs are
forks: see `forked_runs`.
"""

from __future__ import annotations

import fnmatch
import json
import os
import subprocess
import sys
import unittest
from collections.abc import Iterable
from concurrent.futures import ThreadPoolExecutor
from pathlib import Path

from .due import Due, Place, due_of, faults, told_by
from .forked_runs import run_program, sample
from .support import PACKAGE, PROGRAM_RUNS, run_python

PATTERN = os.environ.get("ITC_PROGRAMS", "*")
AT_ONCE = 2
PROGRAMS = PACKAGE / "tests" / "programs"

Ended = subprocess.CompletedProcess[str]


def programs(folder: Path) -> list[Path]:
    """The programs of a folder, without the modules that they import."""
    return [path for path in sorted(folder.glob("[a-z]*.py")) if fnmatch.fnmatch(path.stem, PATTERN)]


def run_all(paths: Iterable[Path]) -> list[tuple[Path, Ended]]:
    """Runs each, a few at a time."""
    with ThreadPoolExecutor(AT_ONCE) as pool:
        running = [(path, pool.submit(run_program, path, place)) for place, path in enumerate(paths)]
    return [(path, job.result()) for path, job in running]


EACH_IN_A_CHILD = """
import json, os, sys, types
def run(program):
    module = sys.modules["__main__"] = types.ModuleType("__main__")
    sys.argv, sys.path[0], module.__file__ = [program], os.path.dirname(program), program
    with open(program, encoding="utf-8") as text:
        exec(compile(text.read(), program, "exec"), vars(module))
for program in sys.argv[1:]:
    told, telling = os.pipe()
    child = os.fork()
    if child == 0:
        os.dup2(os.open(os.devnull, os.O_WRONLY), 1)
        os.dup2(telling, 2)
        os.close(told), os.close(telling)
        run(program)
        break
    os.close(telling)
    with open(told, encoding="utf-8") as errors:
        said = errors.read()
    print(json.dumps((program, (os.waitstatus_to_exitcode(os.waitpid(child, 0)[1]), said))), flush=True)
"""
"""Runs each program as Python does, in a child of one process: to begin Python takes longer than most of them."""


class Programs(unittest.TestCase):
    def test_marked_programs_have_the_verdicts_that_are_due(self) -> None:
        self.assert_due(programs(PROGRAMS))

    def test_unchanged_programs_have_the_verdicts_that_are_due(self) -> None:
        self.assert_due(programs(PROGRAMS / "unchanged"))

    def test_programs_end_well_where_nothing_is_traced(self) -> None:
        marked, unchanged = ([str(path) for path in programs(folder)] for folder in (PROGRAMS, PROGRAMS / "unchanged"))
        with ThreadPoolExecutor(AT_ONCE) as pool:
            running = [
                pool.submit(run_python, "-c", f"import itc_trace{EACH_IN_A_CHILD}", *marked),  # It is imported once for all of them.
                pool.submit(run_python, "-c", EACH_IN_A_CHILD, *unchanged),
            ]
        ended = [job.result() for job in running]
        told = dict(json.loads(line) for one in ended for line in one.stdout.splitlines())
        self.assertEqual(sorted(told), sorted([*marked, *unchanged]), [one.stderr for one in ended])
        for path, (status, errors) in told.items():
            with self.subTest(program=path):
                self.assertEqual((status, errors), (0, ""))

    def test_unchanged_programs_do_not_know_the_package(self) -> None:
        for path in (PROGRAMS / "unchanged").glob("*.py"):
            with self.subTest(program=path.stem):
                self.assertNotIn("itc_trace", path.read_text())

    def assert_due(self, paths: list[Path]) -> None:
        judged = {path: due_of(path) for path in paths}
        print(sample(), file=sys.stderr)
        for path, ended in run_all([path for path in judged for _ in range(PROGRAM_RUNS)]):
            with self.subTest(program=path.stem):
                wrong = faults(judged[path], ended.returncode, ended.stderr)
                self.assertEqual(wrong, [], f"\n{ended.stdout}{ended.stderr}")


RACE = """\
itc_trace: race on stock: read at shop.py:7 and write at folder/shop.py:8, 2 times
    event 6 of sell_2 and event 3 of sell_1: nothing orders them
itc_trace: 1 race in this run
"""
SEVERAL_LINES = """\
itc_trace: race on stock['left'] (a dict made at shop.py:4)
    read  at shop.py:7 in sell:  left = stock["left"]
    write at shop.py:8 in sell:  stock["left"] = left
    threads sell_1 and sell_2: nothing orders them; 3 times
itc_trace: 1 race in this run
"""
POSSIBLE = RACE.replace("race on", "possible race on").replace("1 race in", "no race in")
NONE = "itc_trace: no race in this run; 1 possible\n"
READ, WRITE = Place("read", "shop.py", 7), Place("write", "shop.py", 8)


class Faults(unittest.TestCase):
    """What is not due is a fault: else no program could fail."""

    def due(self, verdict: str, *places: Place, thing: str = "stock", further: tuple[Place, ...] = ()) -> Due:
        return Due(frozenset({verdict}), (thing,), (), frozenset(places), frozenset(further))

    def assert_faults(self, text: str, due: Due, status: int) -> None:
        self.assertTrue(faults(due, status, text))

    def test_what_is_due_is_no_fault(self) -> None:
        self.assertEqual(faults(self.due("race", READ, WRITE), 66, RACE), [])
        self.assertEqual(faults(self.due("race", READ, WRITE, thing="stock.left"), 66, SEVERAL_LINES), [])
        self.assertEqual(faults(self.due("possible", READ, WRITE), 0, POSSIBLE), [])
        self.assertEqual(faults(self.due("none"), 0, NONE), [])

    def test_another_verdict_is_a_fault(self) -> None:
        for text, verdict, places, status in (
            (RACE, "none", (), 66), (RACE, "possible", (READ, WRITE), 66), (POSSIBLE, "none", (), 0),
            (POSSIBLE, "race", (READ, WRITE), 0), (NONE, "race", (READ, WRITE), 0), (NONE, "possible", (READ, WRITE), 0),
        ):
            with self.subTest(text=text, verdict=verdict):
                self.assert_faults(text, self.due(verdict, *places), status)

    def test_another_status_is_a_fault(self) -> None:
        self.assert_faults(RACE, self.due("race", READ, WRITE), 0)
        self.assert_faults(NONE, self.due("none"), 67)
        self.assert_faults(POSSIBLE, self.due("possible", READ, WRITE), 66)

    def test_words_that_say_nothing_are_a_fault(self) -> None:
        self.assert_faults("", self.due("none"), 0)

    def test_another_line_is_a_fault(self) -> None:
        for text in (RACE, SEVERAL_LINES):
            with self.subTest(text=text):
                self.assert_faults(text.replace(":7", ":9"), self.due("race", READ, WRITE), 66)
                self.assert_faults(text, self.due("race", READ), 66)
                self.assert_faults(text, self.due("race", WRITE, further=(READ,)), 66)

    def test_a_line_that_nothing_tells_of_is_a_fault(self) -> None:
        self.assert_faults(RACE, self.due("race", READ, WRITE, Place("read", "shop.py", 20)), 66)
        self.assert_faults(RACE.replace(":7", ":8"), self.due("race", READ, WRITE, Place("read", "shop.py", 8)), 66)

    def test_two_lines_that_are_not_told_of_together_are_a_fault(self) -> None:
        apart = RACE.replace("read at shop.py:7", "write at shop.py:8") + RACE.replace("write at folder/shop.py:8", "write at shop.py:7")
        both = (READ, WRITE, Place("write", "shop.py", 7))
        self.assert_faults(apart, self.due("race", *both), 66)
        self.assertEqual(faults(self.due("race", *both), 66, RACE + apart), [])

    def test_another_kind_or_thing_or_file_is_a_fault(self) -> None:
        self.assert_faults(RACE.replace("read at", "write at"), self.due("race", READ, WRITE), 66)
        self.assert_faults(RACE, self.due("race", READ, WRITE, thing="price"), 66)
        self.assert_faults(SEVERAL_LINES, self.due("race", READ, WRITE, thing="dict"), 66)
        self.assert_faults(RACE.replace("shop.py:7", "store.py:7"), self.due("race", READ, WRITE), 66)

    def test_a_second_race_that_is_not_due_is_a_fault(self) -> None:
        further = RACE.replace(":7", ":30").replace(":8", ":31")
        self.assert_faults(RACE + further, self.due("race", READ, WRITE), 66)
        self.assert_faults(RACE + further.replace("race on", "possible race on"), self.due("race", READ, WRITE), 66)

    def test_each_race_is_read(self) -> None:
        self.assertEqual([one.thing for one in told_by(RACE + SEVERAL_LINES + POSSIBLE)], ["stock", "stock['left']", "stock"])


if __name__ == "__main__":
    unittest.main()
