"""Races are found from the files that a run has kept, with no collector at hand."""

from __future__ import annotations

import shutil
import subprocess
import tempfile
import unittest
from pathlib import Path

from itc_trace import Verdict

from .support import run_python, run_traced

RACING = """
import threading
stock = {"left": 2}
lock = threading.Lock()
total = [0]
def sell():
    with lock:
        total[0] += 1
    stock["left"] -= 1
threads = [threading.Thread(target=sell) for _ in range(2)]
for thread in threads:
    thread.start()
for thread in threads:
    thread.join()
"""
CLEAN = RACING.replace("    stock[", "        stock[")


class Files(unittest.TestCase):
    def setUp(self) -> None:
        self.folder = Path(self.enterContext(tempfile.TemporaryDirectory()))

    def kept(self, name: str, text: str) -> tuple[str, str, "subprocess.CompletedProcess[str]"]:
        program, export = self.folder / f"{name}.py", self.folder / name
        program.write_text(text)
        return str(export), f"{export}.journal", run_traced("--export", str(export), str(program))

    def races(self, *words: str) -> "subprocess.CompletedProcess[str]":
        return run_python("-m", "itc_trace", "races", *words)

    def assert_refused(self, *words: str, told: str) -> None:
        ran = self.races(*words)
        self.assertEqual((ran.returncode, ran.stdout), (2, ""), ran.stderr)
        self.assertRegex(ran.stderr, r"\Aitc_trace: [^\n]*\n\Z")
        self.assertIn(told, ran.stderr)

    def test_they_tell_what_the_run_told(self) -> None:
        for name, text, status in (("racing", RACING, Verdict.RACES), ("clean", CLEAN, Verdict.NO_RACE)):
            export, journal, ran = self.kept(name, text)
            again = self.races(export, journal)
            self.assertEqual((again.returncode, again.stdout, again.stderr), (status, ran.stderr, ""))
            self.assertEqual(ran.returncode, status)

    def test_an_export_without_a_header_is_one_too(self) -> None:
        export, journal, ran = self.kept("racing", RACING)
        lines = Path(export).read_text().splitlines(keepends=True)
        Path(export).write_text("".join(lines[1:]))
        self.assertEqual(self.races(export, journal).stdout, ran.stderr)

    def test_a_journal_that_breaks_off_is_incomplete(self) -> None:
        export, journal, _ = self.kept("clean", CLEAN)
        lines = Path(journal).read_text().splitlines(keepends=True)
        end = next(number for number, line in enumerate(lines) if line.startswith('{"end"'))
        Path(journal).write_text("".join(lines[:end]))
        ran = self.races(export, journal)
        self.assertEqual(ran.returncode, Verdict.INCOMPLETE, ran.stdout)
        self.assertIn("breaks off", ran.stdout)

    def test_what_is_no_export(self) -> None:
        export, journal, _ = self.kept("racing", RACING)
        text, spoilt = Path(export).read_text(), self.folder / "spoilt"
        self.assert_refused(str(self.folder / "no_such"), journal, told="no_such cannot be read")
        self.assert_refused(str(self.folder), journal, told="Is a directory")
        self.assert_refused(journal, journal, told=f"{journal} is a journal: name the export that was kept with it first")
        spoilt.write_text(text.replace('"kind":"spawn"', '"kind":"swan"', 1))
        self.assert_refused(str(spoilt), journal, told=f"{spoilt} is no export: line 2 is faulty")

    def test_an_export_that_is_not_of_the_journal(self) -> None:
        export, journal, _ = self.kept("racing", RACING)
        other, _, _ = self.kept("other", "import threading\nthread = threading.Thread(target=print)\nthread.start()\nthread.join()\n")
        cut = self.folder / "cut"
        cut.write_text("".join(Path(export).read_text().splitlines(keepends=True)[:-1]))
        for name in (other, str(cut)):
            self.assert_refused(name, journal, told=f"the journal is of another trace: {name} has no event")

    def test_the_collectors_program_is_named_if_it_is_not_found(self) -> None:
        export, journal, _ = self.kept("racing", RACING)
        ran = run_python("-m", "itc_trace", "races", export, journal, ITC_TRACE="/no_such")
        self.assertEqual((ran.returncode, ran.stdout), (2, ""))
        self.assertIn("ITC_TRACE names /no_such", ran.stderr)

    @unittest.skipUnless(shutil.which("true"), "a program that is no collector")
    def test_a_program_that_is_no_collector_loads_nothing(self) -> None:
        export, journal, _ = self.kept("racing", RACING)
        ran = run_python("-m", "itc_trace", "races", export, journal, ITC_TRACE="true")
        self.assertEqual((ran.returncode, ran.stdout), (2, ""), ran.stderr)


if __name__ == "__main__":
    unittest.main()
