"""Whatever touches what two threads share is seen: by each form of the language, and by what its library does with what it is given."""

from __future__ import annotations

import json
import os
import subprocess
import sys
import unittest
from typing import Any

from itc_trace.watch import helper

from .pairs import pairs
from .support import PACKAGE, WAIT


def told(form: str) -> dict[str, Any]:
    """What a process with hooks of this form has told of all pairs. The last line is its own: the pairs write, too."""
    environment = {**os.environ, "PYTHONPATH": str(PACKAGE), "ITC_TRACE_PURE": form}
    words = [sys.executable, "-m", "tests.pairs"]
    ran = subprocess.run(words, cwd=PACKAGE, env=environment, capture_output=True, text=True, timeout=WAIT, check=False)
    if ran.returncode:
        raise AssertionError(ran.stderr)
    found: dict[str, Any] = json.loads(ran.stdout.splitlines()[-1])
    return found


class Pairs(unittest.TestCase):
    def check(self, form: str) -> None:
        found = told(form)
        self.assertEqual(found["missed"], [], "no race was told")
        self.assertEqual(found["false"], [], "a race was told under a lock")
        self.assertEqual(found["faults"], [], "the program itself is wrong")
        self.assertEqual(found["count"], len(list(pairs())))

    @unittest.skipIf(helper.quick is None, "there is no compiler here, or another Python")
    def test_hooks_in_c_see_each_pair(self) -> None:
        self.check("")

    def test_hooks_in_python_see_each_pair(self) -> None:
        self.check("1")


if __name__ == "__main__":
    unittest.main()
