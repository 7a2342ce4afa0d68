"""Small programs of two threads have the answer that is due by their own text: told at exactly these lines, named, or clean."""

from __future__ import annotations

import ast
import collections
import json
import os
import subprocess
import sys
import unittest
from pathlib import Path
from typing import Any

from itc_trace import Verdict
from itc_trace.watch import helper
from itc_trace.watch.learned import Learned
from itc_trace.watch.process_state import CHANGED_STATE
from itc_trace.watch.scopes import Scopes
from itc_trace.watch.stored import kept_by, stored_by

from .constructs import CLEAN, STARRED, TOLD, constructs
from .support import PACKAGE, WAIT, ProgramCase, run_traced


def told(form: str) -> dict[str, Any]:
    """What a process with hooks of this form has told of all programs. The last line is its own."""
    environment = {**os.environ, "PYTHONPATH": str(PACKAGE), "ITC_TRACE_PURE": form}
    words = [sys.executable, "-m", "tests.constructs"]
    ran = subprocess.run(words, cwd=PACKAGE, env=environment, capture_output=True, text=True, timeout=WAIT, check=False)
    if ran.returncode:
        raise AssertionError(ran.stderr)
    found: dict[str, Any] = json.loads(ran.stdout.splitlines()[-1])
    return found


class Constructs(unittest.TestCase):
    def check(self, form: str) -> None:
        found = told(form)
        self.assertEqual(found["faults"], [], "the program itself is wrong")
        self.assertEqual(found["wrong"], [], "another answer is told than is due")
        self.assertEqual(found["false"], [], "a race is told under a lock")
        self.assertEqual(sum(found["counts"].values()), len(list(constructs())))

    @unittest.skipIf(helper.quick is None, "there is no compiler here, or another Python")
    def test_hooks_in_c_answer_each_program(self) -> None:
        self.check("")

    def test_hooks_in_python_answer_each_program(self) -> None:
        self.check("1")


class Tables(unittest.TestCase):
    def test_there_are_enough_of_each_kind(self) -> None:
        counts = collections.Counter(one.kind for one in constructs())
        self.assertGreaterEqual(counts[TOLD], 80)
        self.assertGreaterEqual(counts[STARRED], 10)
        self.assertGreaterEqual(counts[CLEAN], 30)

    def test_no_program_stands_there_twice(self) -> None:
        counts = collections.Counter(text for one in constructs() for text in (one.name, one.source))
        self.assertEqual([text for text, count in counts.items() if count > 1], [])

    def test_each_mark_is_read(self) -> None:
        for one in constructs():
            with self.subTest(one.name):
                self.assertEqual(one.source.count("# race") + one.source.count("# star"), len(one.due.lines) + sum(
                    number not in one.due.lines for number, _ in one.due.stars
                ))


MODULE = "debug = False\ndef is_debug(): return debug\n"
BY_NAME = """
import threading, importlib, sys
import conf
def change(): CHANGE
threads = [threading.Thread(target=one) for one in (change, conf.is_debug)]
for thread in threads: thread.start()
for thread in threads: thread.join()
"""
CHANGES = (
    "importlib.import_module('conf').debug = True", "sys.modules['conf'].debug = True",
    "\n    module = importlib.import_module('conf')\n    module.debug = True", "\n    module = sys.modules.get('conf')\n    del module.debug",
)


class OtherModules(ProgramCase):
    """A module that another one has found by its name."""

    def test_a_variable_that_is_stored_there_is_seen_where_its_functions_read_it(self) -> None:
        for change in CHANGES:
            with self.subTest(change=change):
                program = Path(self.program(BY_NAME.replace("CHANGE", change)))
                program.with_name("conf.py").write_text(MODULE)
                ran = run_traced(str(program))
                self.assertEqual(ran.returncode, Verdict.RACES, ran.stderr)
                self.assertIn("itc_trace: race on conf.debug", ran.stderr)
                self.assertRegex(ran.stderr, r"read +at .*conf\.py:2 in is_debug")

    def test_the_text_of_a_source_tells_so_and_its_tree(self) -> None:
        for change in CHANGES:
            with self.subTest(change=change):
                text = BY_NAME.replace("CHANGE", change)
                self.assertIn("debug", elsewhere_by(text))
                self.assertIn("debug", stored_by(text.encode()))
        plain = "import sys\none.debug = True\n"
        self.assertNotIn("debug", elsewhere_by(plain) | stored_by(plain.encode()))

    def test_a_store_of_what_the_library_keeps_is_found_in_the_text(self) -> None:
        for text in ("import sys\nsys.stdout = one\n", "import sys\nsetattr(sys, 'stdout', one)\n"):
            self.assertIn(f"{CHANGED_STATE}sys.stdout", kept_by(text.encode()))
        self.assertNotIn(f"{CHANGED_STATE}sys.stdout", kept_by(b"import sys\none.stdout = sys.stdout\n"))


def elsewhere_by(text: str) -> set[str]:
    """The names that a module stores in others, by its tree."""
    learned = Learned()
    Scopes(ast.parse(text), learned)
    return learned.elsewhere


if __name__ == "__main__":
    unittest.main()
