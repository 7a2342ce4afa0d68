"""A program of which nothing is watched, and that touches nothing, is told so, and not only that it has no race."""

from __future__ import annotations

import tempfile
import unittest

from itc_trace import Collector
from itc_trace.cli.run import UNTOUCHED
from itc_trace.model.verdict import END_ROW

from .support import ProgramCase, run_python, run_traced

RACY = """
import threading, itc_trace
count = itc_trace.shared(0, "count")
def work():
    global count
    count += 1
threads = [threading.Thread(target=work) for _ in range(2)]
for thread in threads:
    thread.start()
for thread in threads:
    thread.join()
"""
UNSHARED = RACY.replace('itc_trace.shared(0, "count")', "0")
TOUCHED = RACY.replace('itc_trace.shared(0, "count")', "0").replace("count += 1", 'itc_trace.touch("count", write=True)')
IN_TURNS = """
import itc_trace
for _ in range(3):
    count = itc_trace.shared(0, "count")
"""


class Untouched(ProgramCase):
    def test_a_run_without_a_touch_says_so(self) -> None:
        ran = run_traced("--watch-nothing", self.program(UNSHARED))
        first, *rest = ran.stderr.splitlines()
        self.assertRegex(first, r"^itc_trace: no race in this run: 0 places of 0 things, \d+ events$")
        self.assertEqual((rest, ran.returncode), (UNTOUCHED.splitlines(), 0))

    def test_a_watched_run_in_which_nothing_is_shared_says_no_more(self) -> None:
        ran = run_traced(self.program("print(1)"))
        self.assertEqual(ran.stderr.count("\n"), 1, ran.stderr)

    def test_a_quiet_run_without_a_touch_says_nothing(self) -> None:
        self.assertEqual(run_traced("--watch-nothing", "--quiet", self.program(UNSHARED)).stderr, "")

    def test_a_run_with_a_touch_does_not_say_so(self) -> None:
        ran = run_traced("--watch-nothing", self.program(TOUCHED))
        self.assertEqual(ran.returncode, 66, ran.stderr)
        self.assertNotIn("nothing was touched", ran.stderr)

    def test_races_of_a_journal_without_a_touch_say_so(self) -> None:
        with Collector("trace") as collector, tempfile.NamedTemporaryFile("w") as journal:
            journal.write(END_ROW)
            journal.flush()
            ran = run_python("-m", "itc_trace", "races", "--port", str(collector.port), "trace", journal.name)
        self.assertEqual(ran.stdout, "itc_trace: no race in this run: 0 places of 0 things, 0 events\n")
        self.assertEqual((ran.stderr, ran.returncode), (f"{UNTOUCHED}\n", 0))

    def test_a_number_that_is_shared_is_warned_of_and_touched_by_nobody(self) -> None:
        ran = run_traced("--watch-nothing", self.program(RACY))
        self.assertRegex(ran.stderr, r"program\.py:3: UserWarning: shared\('count'\) gives back the int as it is")
        self.assertTrue(ran.stderr.endswith(f"{UNTOUCHED}\n"), ran.stderr)

    def test_a_line_is_warned_of_once(self) -> None:
        self.assertEqual(run_traced("--watch-nothing", self.program(IN_TURNS)).stderr.count("UserWarning"), 1)

    def test_an_untraced_program_is_not_warned(self) -> None:
        self.assertEqual(run_python("-W", "error", self.program(RACY)).stderr, "")


if __name__ == "__main__":
    unittest.main()
