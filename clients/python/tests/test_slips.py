"""What a program can do to objects, classes, functions, modules and the process is told as a race, or named in the last line."""

from __future__ import annotations

import json
import os
import subprocess
import sys
import unittest

from itc_trace.watch import helper

from .slips import rows
from .support import PACKAGE, WAIT


class Slips(unittest.TestCase):
    def check(self, form: str) -> None:
        environment = {**os.environ, "PYTHONPATH": str(PACKAGE), "ITC_TRACE_PURE": form}
        words = [sys.executable, "-m", "tests.slips", "--json"]
        ran = subprocess.run(words, cwd=PACKAGE, env=environment, capture_output=True, text=True, timeout=WAIT, check=False)
        self.assertEqual(ran.returncode, 0, ran.stderr)
        found = json.loads(ran.stdout.splitlines()[-1])
        self.assertEqual(found, {"wrong": [], "faults": [], "count": len(list(rows()))})

    @unittest.skipIf(helper.quick is None, "there is no compiler here, or another Python")
    def test_hooks_in_c_answer_each_row(self) -> None:
        self.check("")

    def test_hooks_in_python_answer_each_row(self) -> None:
        self.check("1")


if __name__ == "__main__":
    unittest.main()
