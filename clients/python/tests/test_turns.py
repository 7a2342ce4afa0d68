"""Between tasks of one loop a change races if it may be made from a look of an earlier turn, and else not."""

from __future__ import annotations

import collections
import json
import os
import subprocess
import sys
import unittest

from itc_trace.watch import helper

from .support import PACKAGE, WAIT
from .turns import FORMS


class Turns(unittest.TestCase):
    def check(self, form: str) -> None:
        environment = {**os.environ, "PYTHONPATH": str(PACKAGE), "ITC_TRACE_PURE": form}
        words = [sys.executable, "-m", "tests.turns"]
        ran = subprocess.run(words, cwd=PACKAGE, env=environment, capture_output=True, text=True, timeout=WAIT, check=False)
        self.assertEqual(ran.returncode, 0, ran.stderr)
        self.assertEqual(json.loads(ran.stdout.splitlines()[-1]), [], "another answer is told, or the program itself is wrong")

    @unittest.skipIf(helper.quick is None, "there is no compiler here, or another Python")
    def test_hooks_in_c_tell_each_form(self) -> None:
        self.check("")

    def test_hooks_in_python_tell_each_form(self) -> None:
        self.check("1")

    def test_no_form_stands_there_twice(self) -> None:
        found = collections.Counter((form.one, form.other, form.more) for form in FORMS)
        self.assertEqual([form for form, count in found.items() if count > 1], [])


if __name__ == "__main__":
    unittest.main()
