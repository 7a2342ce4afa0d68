"""Programs that synchronize without the obvious lock are told of nothing, and each twin with one thing wrong is told."""

from __future__ import annotations

import json
import os
import subprocess
import sys
import unittest

from itc_trace.watch import helper

from .in_order import twins
from .support import PACKAGE, WAIT


class InOrder(unittest.TestCase):
    def check(self, form: str) -> None:
        environment = {**os.environ, "PYTHONPATH": str(PACKAGE), "ITC_TRACE_PURE": form}
        words = [sys.executable, "-m", "tests.in_order"]
        ran = subprocess.run(words, cwd=PACKAGE, env=environment, capture_output=True, text=True, timeout=WAIT, check=False)
        self.assertEqual(ran.returncode, 0, ran.stderr)
        found = json.loads(ran.stdout.splitlines()[-1])
        self.assertEqual(found["faults"], {}, "the program itself is wrong")
        self.assertEqual(found["false"], [], "a race is told of what is in order")
        self.assertEqual(found["missed"], [], "nothing is told of a twin that is wrong")
        self.assertEqual(found["wrong"], [], "another line of a twin is told")

    @unittest.skipIf(helper.quick is None, "there is no compiler here, or another Python")
    def test_hooks_in_c_tell_each_twin_and_no_program_in_order(self) -> None:
        self.check("")

    def test_hooks_in_python_tell_each_twin_and_no_program_in_order(self) -> None:
        self.check("1")

    def test_there_are_enough_and_none_stands_there_twice(self) -> None:
        chosen = twins()
        self.assertGreaterEqual(len(chosen), 80)
        texts = {text for one in chosen for text in (one.clean.name, one.clean.source, one.twin.source)}
        self.assertEqual(len(texts), 3 * len(chosen))


if __name__ == "__main__":
    unittest.main()
