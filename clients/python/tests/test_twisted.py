"""Coroutines, callbacks and connections of Twisted are tasks of the trace, and what Twisted promises puts them in order."""

from __future__ import annotations

import re
import unittest

from itc_trace import Verdict

from . import twisted_programs as programs, twisted_scenarios as scenarios
from .support import ProgramCase, needs, python_with, run_python, run_traced

FORMS = ("", "1")
"""With hooks in C, and with those in Python."""
OF_ONE_RUN = re.compile(r"0x[0-9a-f]{6,}|\b\d{4,}\b")
"""What differs from run to run: places in memory, and ports."""
IN_ASYNCIO = "from twisted.internet import asyncioreactor; asyncioreactor.install()"
TABLES = {
    "coroutines": scenarios.COROUTINES, "deferreds": scenarios.DEFERREDS, "reactor": scenarios.REACTOR,
    "threads": scenarios.THREADS, "orders": scenarios.ORDERS, "connections": scenarios.CONNECTIONS,
}
MODULES = "twisted.internet"


def racing(told: str) -> list[str]:
    return re.findall(r"^itc_trace: race on (.*?)(?: \(a |\n)", told, re.MULTILINE)


def names_of(text: str) -> list[str]:
    return re.findall(r"@scenario\ndef (\w+)", text)


@needs("python3-twisted", MODULES)
class Twisted(ProgramCase):
    def run_it(self, text: str, *words: str, form: str = "") -> tuple[int, str, str]:
        ran = run_traced(self.program(text), *words, python=python_with(MODULES), ITC_TRACE_PURE=form)
        return ran.returncode, ran.stdout, ran.stderr

    def check_orders(self, table: str, form: str, reactor: str = "") -> None:
        begin = scenarios.BEGIN.replace("REACTOR", reactor, 1)
        status, written, told = self.run_it(begin + TABLES[table] + scenarios.END, form=form)
        self.assertEqual((status, written), (Verdict.RACES, ""), told)
        names = names_of(TABLES[table])
        self.assertEqual(racing(told), [f"{name} wrong" for name in names], told)

    def test_what_hands_over_orders_and_nothing_else_does(self) -> None:
        self.assertGreaterEqual(sum(len(names_of(text)) for text in TABLES.values()), 25)
        for form in FORMS:
            for table in TABLES:
                with self.subTest(table=table, form=form):
                    self.check_orders(table, form)

    def test_the_reactor_of_asyncio_gives_the_same_orders(self) -> None:
        for table in TABLES:
            with self.subTest(table=table):
                self.check_orders(table, "", IN_ASYNCIO)

    def test_what_promises_no_order_gives_none(self) -> None:
        text = scenarios.BEGIN.replace("REACTOR", "", 1) + scenarios.CONNECTIONS.partition("@scenario")[0]
        status, written, told = self.run_it(text + scenarios.NO_ORDERS + scenarios.END)
        due = [f"{name} {way}" for name in names_of(scenarios.NO_ORDERS) for way in ("right", "wrong")]
        self.assertEqual((status, written, racing(told)), (Verdict.RACES, "", due), told)

    def test_what_is_behind_a_lock_is_in_order_by_luck(self) -> None:
        begin = scenarios.BEGIN.replace("REACTOR", "", 1)
        status, written, told = self.run_it(begin + scenarios.LOCKS + scenarios.END)
        self.assertEqual((status, written, racing(told)), (0, "", []), told)
        self.assertEqual(re.findall(r"possible race on (.*)", told), ["DeferredLock out"], told)

    def test_programs_as_people_write_them_are_told_rightly(self) -> None:
        for program in programs.PROGRAMS:
            for form in FORMS:
                with self.subTest(program=program.name, form=form):
                    status, written, told = self.run_it(program.source, "safe", form=form)
                    self.assertEqual((status, written, racing(told)), (0, f"{program.safe}\n", []), told)
                    status, written, told = self.run_it(program.source, "free", form=form)
                    self.assertEqual((status, written), (Verdict.RACES, f"{program.free}\n"), told)
                    self.assertEqual(sorted(set(racing(told))), [program.things], told)
                    self.assertEqual(programs.told_lines(told), program.racing_lines, told)
                    self.assertNotIn("not looked into", told)

    def test_tasks_of_asyncio_and_of_twisted_are_tasks_of_one_loop(self) -> None:
        for form in FORMS:
            status, written, told = self.run_it(programs.ASYNCIO, "safe", form=form)
            self.assertEqual((status, written, racing(told)), (0, "16\n", []), told)
            status, _, told = self.run_it(programs.ASYNCIO, "free", form=form)
            self.assertEqual((status, set(racing(told))), (Verdict.RACES, {"table['n']"}), told)
            self.assertEqual(programs.told_lines(told), programs.marked(programs.ASYNCIO), told)

    def test_a_look_and_a_change_of_one_turn_are_one_step(self) -> None:
        for text in (programs.ONE_TURN, programs.INITIAL):
            status, _, told = self.run_it(programs.BEGIN + text, "safe")
            self.assertEqual((status, racing(told)), (0, []), told)
            self.assertNotIn("not looked into", told)

    def test_coroutines_without_a_reactor_take_turns(self) -> None:
        status, written, told = self.run_it(programs.NO_REACTOR)
        self.assertEqual((status, written), (Verdict.RACES, "{'n': 1} [True, True]\n"), told)
        self.assertEqual(programs.told_lines(told), programs.marked(programs.NO_REACTOR), told)

    def test_state_machines_of_timers_are_named_if_there_are_two_at_once(self) -> None:
        for count, is_told in (("2", True), ("1", False)):
            status, _, told = self.run_it(programs.MACHINES, "safe", count)
            self.assertEqual(status, Verdict.NO_RACE, told)
            self.assertEqual("not looked into: tasks of callbacks at program.py" in told, is_told, told)

    def test_a_pool_of_a_class_of_the_program_is_named(self) -> None:
        status, written, told = self.run_it(programs.OWN_POOL, "safe")
        self.assertEqual((status, written), (0, "4\n"), told)
        self.assertIn("not looked into: tasks of Pool at program.py:", told)

    def test_a_twisted_that_is_not_as_it_is_known_has_a_star(self) -> None:
        status, written, told = self.run_it(programs.OTHER)
        self.assertEqual((status, written), (0, "7\n"), told)
        self.assertIn("not looked into: tasks of twisted at an import by a library", told)

    def test_what_fails_does_so_as_ever(self) -> None:
        program, python = self.program(programs.FAULTS), python_with(MODULES)
        plain = run_python(program, python=python)
        self.assertGreater(plain.stdout.count("Traceback"), 8, plain.stderr)
        for form in FORMS:
            traced = run_traced("--quiet", program, python=python, ITC_TRACE_PURE=form)
            self.assertEqual(OF_ONE_RUN.sub("", traced.stdout), OF_ONE_RUN.sub("", plain.stdout), traced.stderr)
            self.assertEqual(traced.stderr, plain.stderr)


if __name__ == "__main__":
    unittest.main()
