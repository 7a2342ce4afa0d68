"""Races that a lock hides by luck, as `run` tells them."""

from __future__ import annotations

import os
import stat
import tempfile
import unittest
from pathlib import Path

from itc_trace import Verdict
from itc_trace.record.collector import find_program

from .support import ProgramCase, run_traced

LUCKY = """
import threading, os, itc_trace
guard = MADE
total, (end, beginning) = 0, os.pipe()
def add():
    global total
    itc_trace.touch("stock", write=True)
    with guard:
        total += 1
    os.write(beginning, b"x")
def look():
    global total
    os.read(end, 1)
    with guard:
        total += 1
    itc_trace.touch("stock")
threads = [threading.Thread(target=one) for one in (add, look)]
for thread in threads:
    thread.start()
for thread in threads:
    thread.join()
"""
WAITING = LUCKY + """
def wait():
    with guard:
        guard.wait(0.01)
"""
MADE_ELSEWHERE = LUCKY.replace("itc_trace\n", "itc_trace, gates\n", 1)
NOTIFIED = MADE_ELSEWHERE.replace("        total += 1\n", "        total += 1\n        guard.notify()\n")


class Possible(ProgramCase):
    def told(self, text: str, made: str, *words: str) -> list[str]:
        program = self.program(text.replace("MADE", made))
        Path(program).with_name("gates.py").write_text("import threading\ngate = threading.Condition()\n")
        ran = run_traced("--watch-nothing", *words, program)
        return [str(ran.returncode), *ran.stderr.splitlines()]

    def test_the_lock_is_named_and_the_run_is_no_failure(self) -> None:
        for made in ("threading.Lock()", "threading.RLock()"):
            status, first, add, look, why, last = self.told(LUCKY, made)
            self.assertEqual((status, first), ("0", "itc_trace: possible race on stock"))
            self.assertRegex(add, r'^    write at .*program.py:7 in add:  itc_trace.touch\("stock", write=True\)$')
            self.assertRegex(look, r'^    read  at .*program.py:16 in look:  itc_trace.touch\("stock"\)$')
            self.assertRegex(why, r"ordered in this run only by lock guard \(.*program.py:3\), which neither holds; once, as events \d+ and \d+; id \w+$")
            self.assertRegex(last, "^itc_trace: no race in this run; 1 possible: 2 places of 1 thing, ")

    def test_it_fails_if_that_is_asked_for(self) -> None:
        self.assertEqual(self.told(LUCKY, "threading.Lock()", "--fail-on", "possible")[0], str(int(Verdict.RACES)))

    def test_a_condition_at_which_nobody_can_wait_is_a_lock(self) -> None:
        self.assertIn("itc_trace: possible race on stock", self.told(LUCKY, "threading.Condition()"))
        self.assertIn("itc_trace: possible race on stock", self.told(LUCKY, "threading.Condition(threading.Lock())"))

    def test_a_condition_at_which_somebody_may_wait_is_none(self) -> None:
        self.assertEqual(len(self.told(WAITING, "threading.Condition()")), 2)
        self.assertEqual(len(self.told(WAITING, "threading.Condition(threading.Lock())")), 2)

    def test_a_condition_of_another_file_is_none_once_it_is_notified(self) -> None:
        self.assertEqual(len(self.told(NOTIFIED, "gates.gate")), 2)
        self.assertIn("itc_trace: possible race on stock", self.told(MADE_ELSEWHERE, "gates.gate"))

    def test_without_a_second_collector_the_answer_is_incomplete(self) -> None:
        with tempfile.TemporaryDirectory() as folder:
            only_one = Path(folder, "only_one")
            only_one.write_text(f'#!/bin/sh\ncase "$*" in *without_locks*) exit 3 ;; esac\nexec "{find_program()}" "$@"\n')
            only_one.chmod(only_one.stat().st_mode | stat.S_IXUSR)
            program = self.program(LUCKY.replace("MADE", "threading.Lock()"))
            ran = run_traced("--watch-nothing", program, ITC_TRACE=os.fspath(only_one))
        self.assertEqual(ran.returncode, Verdict.INCOMPLETE, ran.stderr)
        self.assertIn("itc_trace: incomplete: possible races cannot be told: ", ran.stderr)


if __name__ == "__main__":
    unittest.main()
