"""What all tests of a session met is told at its end, wherever they ran, and written in each format."""

from __future__ import annotations

import json
import os
import subprocess
import tempfile
import unittest
import xml.etree.ElementTree as ElementTree
from pathlib import Path

from itc_trace.model.verdict import Verdict
from itc_trace.report.as_json import report_of_json

from .sarif_form import faults
from .support import PACKAGE, needs, python_with

TESTS = """
import threading, pytest
stock = {"left": 9, "sold": 0}
def sell():
    stock["left"] -= 1
def count():
    stock["sold"] += 1
def run(work):
    threads = [threading.Thread(target=work) for _ in range(2)]
    for thread in threads: thread.start()
    for thread in threads: thread.join()
def test_sells(): run(sell)
def test_sells_again(): run(sell)
def test_counts(): run(count)
def test_quiet(): sell()
"""


@needs("python3-pytest python3-pytest-xdist", "pytest", "xdist")
class Summaries(unittest.TestCase):
    def setUp(self) -> None:
        self.folder = Path(self.enterContext(tempfile.TemporaryDirectory()))
        (self.folder / "test_shop.py").write_text(TESTS)

    def run_tests(self, *words: str) -> "subprocess.CompletedProcess[str]":
        environment = {key: value for key, value in os.environ.items() if not key.startswith("PYTEST")}
        command = [python_with("pytest", "xdist") or "", "-m", "pytest", "-p", "itc_trace.pytest_plugin", "-p", "no:cacheprovider", "--races", *words]
        return subprocess.run(
            command, capture_output=True, text=True, cwd=self.folder, timeout=900, check=False,
            env={**environment, "PYTHONPATH": str(PACKAGE)},
        )

    def section(self, said: str) -> str:
        return said.partition("= races =")[2].partition("\n=====")[0]

    def test_the_section_counts_by_test(self) -> None:
        ran = self.run_tests("--tb=no", "--races-json", "r.json", "--races-sarif", "r.sarif", "--races-github", "--junit-xml", "r.xml")
        self.assertEqual(ran.returncode, 1, ran.stderr)
        section = self.section(ran.stdout)
        self.assertIn("    in 2 tests, first in test_shop.py::test_sells\n    and 1 more pair on stock: -v shows them at the end\n", section)
        self.assertIn("1 race: test_shop.py::test_sells\n1 race: test_shop.py::test_sells_again\n1 race: test_shop.py::test_counts\n", section)
        self.assertIn("\nitc_trace: 2 races in 4 tests\n", section)
        report = report_of_json((self.folder / "r.json").read_text())
        self.assertEqual(report.verdict, Verdict.RACES)
        self.assertEqual({one.thing: len(one.tests) for one in report.findings}, {"stock['left']": 2, "stock['sold']": 1})
        self.assertEqual(faults(json.loads((self.folder / "r.sarif").read_text())), [])
        self.assertEqual(ran.stdout.count("\n::error file=test_shop.py,line="), 2, ran.stdout)
        failures = [one.attrib["message"] for one in ElementTree.parse(self.folder / "r.xml").iter("failure")]
        self.assertEqual(len(failures), 3, failures)
        for finding in report.findings:
            self.assertTrue(any(finding.identity in one for one in failures), failures)

    def test_the_workers_of_xdist_are_put_together(self) -> None:
        ran = self.run_tests("--tb=no", "-n", "2", "--races-json", "r.json")
        self.assertEqual(ran.returncode, 1, ran.stderr)
        self.assertIn("itc_trace: 2 races in 4 tests", self.section(ran.stdout))
        report = report_of_json((self.folder / "r.json").read_text())
        self.assertEqual(sorted(len(one.tests) for one in report.findings), [1, 2])

    def test_a_worker_that_ends_within_a_test_leaves_the_run_incomplete(self) -> None:
        (self.folder / "test_shop.py").write_text(f"import os\n{TESTS}def test_ends(): os._exit(0)\n")
        ran = self.run_tests("--tb=no", "-n", "2", "-k", "quiet or ends", "--races-json", "r.json")
        self.assertEqual(ran.returncode, 1, ran.stderr)
        self.assertIn("itc_trace: incomplete: test_shop.py::test_ends: the process that ran the test has ended before", self.section(ran.stdout))
        self.assertIn("\nitc_trace: no race in what was seen of 2 tests", self.section(ran.stdout))
        self.assertEqual(report_of_json((self.folder / "r.json").read_text()).verdict, Verdict.INCOMPLETE)

    def test_a_race_of_one_worker_stays_if_another_runs_the_same_test(self) -> None:
        for racing in (["gw0"], ["gw1"], ["gw0", "gw1"]):
            work = f"run(sell) if os.environ['PYTEST_XDIST_WORKER'] in {racing} else time.sleep(3)"
            tests = TESTS.replace("def test_sells(): run(sell)", f"def test_sells(): {work}")
            (self.folder / "test_shop.py").write_text(f"import os, time\n{tests}")
            ran = self.run_tests("--tb=no", "--dist", "each", "--tx", "2*popen", "-k", "test_sells and not again")
            self.assertEqual(ran.returncode, 1, ran.stderr)
            self.assertIn("1 race: test_shop.py::test_sells\nitc_trace: 1 race in 1 test", self.section(ran.stdout))

    def test_a_name_that_is_no_text_comes_from_a_worker(self) -> None:
        try:
            Path(os.fsdecode(os.fsencode(self.folder) + b"/lib\xe9")).mkdir()
        except OSError as fault:
            self.skipTest(str(fault))
        head, _, rest = TESTS.partition("def run")
        Path(self.folder, "lib\udce9", "shop.py").write_text(head)
        found = "import sys, threading\nsys.path.insert(0, 'lib\\udce9')\nfrom shop import sell, count\n"
        (self.folder / "test_shop.py").write_text(f"{found}def run{rest}")
        for words in ((), ("-n", "2")):
            ran = self.run_tests("--tb=no", "--races-json", "r.json", *words)
            self.assertEqual(ran.returncode, 1, ran.stdout)
            self.assertIn("itc_trace: 2 races in 4 tests", self.section(ran.stdout))
            report = report_of_json((self.folder / "r.json").read_text())
            self.assertEqual({side.file for one in report.findings for side in one.sides}, {f"{self.folder}/lib\udce9/shop.py"})

    def test_a_baseline_is_made_by_tests_and_holds_in_each_of_them(self) -> None:
        self.assertEqual(self.run_tests("-q", "--tb=no", "--races-write-baseline", "known.json", "-k", "sells").returncode, 1)
        kept = json.loads((self.folder / "known.json").read_text())["races"]
        self.assertEqual([one["thing"] for one in kept], ["stock['left']"])
        (self.folder / "test_shop.py").write_text("import os\n\n\n" + TESTS)
        for words in ((), ("-n", "2")):
            ran = self.run_tests("--tb=no", "--races-baseline", "known.json", *words)
            self.assertIn("1 failed, 3 passed", ran.stdout)
            self.assertIn("1 race: test_shop.py::test_counts\nitc_trace: 1 new race in 4 tests; 1 in the baseline", self.section(ran.stdout))
        ran = self.run_tests("--tb=no", "--races-baseline", "known.json", "-k", "quiet")
        self.assertEqual(ran.returncode, 0, ran.stdout)
        self.assertIn(f"itc_trace: of the baseline did not occur: {kept[0]['id']} (stock['left'])\n", self.section(ran.stdout))

    def test_quiet_has_a_line_for_each_and_verbose_each_pair(self) -> None:
        quiet = self.section(self.run_tests("-q", "--tb=no").stdout)
        self.assertRegex(quiet, r"race on stock\['left'\] at \S*test_shop.py:5, in 2 tests; id \w{12}\n")
        self.assertNotIn("nothing orders them", quiet)
        verbose = self.section(self.run_tests("-v", "--tb=no").stdout)
        self.assertEqual(verbose.count("nothing orders them"), 2)
        self.assertRegex(verbose, r"id \w{12} in test_shop.py::test_sells_again\n")

    def test_the_settings_of_the_project_hold(self) -> None:
        (self.folder / "pyproject.toml").write_text("[tool.itc_trace]\nbenign = 'meant'\nformats = { json = 'r.json' }\n")
        (self.folder / "meant").write_text("stock['sold']\n")
        ran = self.run_tests("--tb=no")
        self.assertIn("2 failed, 2 passed", ran.stdout)
        self.assertEqual(len(report_of_json((self.folder / "r.json").read_text()).silenced), 1)
        (self.folder / "pyproject.toml").write_text("[tool.itc_trace]\nbenin = 'meant'\n")
        ran = self.run_tests("--tb=no")
        self.assertEqual(ran.returncode, 4)
        self.assertIn("pyproject.toml: [tool.itc_trace]: there is no key benin: did you mean benign?", ran.stderr)

    def test_a_file_that_cannot_be_written_is_no_success(self) -> None:
        ran = self.run_tests("--tb=no", "-k", "quiet", "--races-json", "no/r.json")
        self.assertEqual(ran.returncode, 3, ran.stdout)
        self.assertIn("no/r.json cannot be written: No such file or directory", ran.stderr)

    def test_without_a_traced_test_there_is_no_section(self) -> None:
        (self.folder / "test_shop.py").write_text("def test_quiet(): pass\n")
        environment = {**os.environ, "PYTHONPATH": str(PACKAGE)}
        command = [python_with("pytest", "xdist") or "", "-m", "pytest", "-p", "itc_trace.pytest_plugin", "-p", "no:cacheprovider"]
        ran = subprocess.run(command, capture_output=True, text=True, cwd=self.folder, env=environment, timeout=900, check=False)
        self.assertNotIn("= races =", ran.stdout)


if __name__ == "__main__":
    unittest.main()
