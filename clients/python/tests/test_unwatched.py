"""Code of the program that has no hooks is no all-clear, and sources that the language takes are watched."""

from __future__ import annotations

import os
import tempfile
import unittest
import zipfile
from pathlib import Path

from itc_trace import Verdict

from .support import ProgramCase, run_python, run_traced

STOCK = """
stock = {"left": 2}
def sell():
    stock["left"] -= 1
"""
THREADS = """
import threading
threads = [threading.Thread(target=sell) for _ in range(2)]
for thread in threads:
    thread.start()
for thread in threads:
    thread.join()
"""
HERE = "import os\nfile = os.path.join(os.path.dirname(os.path.abspath(__file__)), 'stock.py')\n"
BY_SPECIFICATION = HERE + """
import importlib.util
specification = importlib.util.spec_from_file_location("stock", file)
module = importlib.util.module_from_spec(specification)
specification.loader.exec_module(module)
sell = module.sell
"""
BY_EXEC = HERE + """
found = {}
exec(compile(open(file).read(), file, "exec"), found)
sell = found["sell"]
"""
BY_PATH = HERE + "import runpy\nsell = runpy.run_path(file)['sell']\n"
BY_LOADER = HERE + """
import importlib.machinery, types
module = types.ModuleType("stock")
importlib.machinery.SourceFileLoader("stock", file).exec_module(module)
sell = module.sell
"""
BY_LOADER_OF_A_PROGRAM = HERE.replace("stock.py", "tool") + """
import importlib.machinery, importlib.util
specification = importlib.util.spec_from_loader("tool", importlib.machinery.SourceFileLoader("tool", file))
module = importlib.util.module_from_spec(specification)
specification.loader.exec_module(module)
sell = module.sell
"""
STARTS_IT = HERE.replace("stock.py", "tool") + """
import subprocess, sys
subprocess.run([sys.executable, file], check=True)
"""
RUNS_IT = STARTS_IT.replace("[sys.executable, file]", "[file]")
NOT_REWRITTEN = """
from itc_trace.watch import finder
def fail(*words):
    raise ValueError("planted")
finder.kept_code = fail
from stock import sell
"""
TERMS = " + ".join(["'a'"] * 2500)
BRANCHES = "".join(f"    elif key == {number}: return {number}\n" for number in range(1, 700))
DEEP = f"text = {TERMS}\ndef branch(key):\n    if key == 0: return 0\n{BRANCHES}{STOCK}"
TOO_DEEP = "text = " + " + ".join(["'a'"] * 20000)
LAMBDAS = """
import itc_trace, threading
calls = (lambda x, y: x + y, lambda x, y: x - y, lambda: 1, lambda: (lambda: 2)())
with itc_trace.tracing():
    threading.Thread(target=calls[0], args=(1, 2)).start()
    print(*[call(3, 2) for call in calls[:2]], *[call() for call in calls[2:]])
"""
CLOSES_FILES = """
import os, threading
thread = threading.Thread(target=int)
thread.start()
thread.join()
os.closerange(3, 200)
print("ran")
"""
JOURNALS = "import glob, os\nfor file in glob.glob(os.environ['TMPDIR'] + '/itc_trace_*/journal'):\n    "
REMOVES_JOURNAL = JOURNALS + "os.unlink(file)\n"
EMPTIES_JOURNAL = "stock = {'left': 2}\ndef sell():\n    stock['left'] -= 1\n" + THREADS + """
import glob, os, time
file, = glob.glob(os.environ["TMPDIR"] + "/itc_trace_*/journal")
while "stock" not in open(file).read():
    time.sleep(0.01)
os.truncate(file, 0)
"""


class Unwatched(ProgramCase):
    def beside(self, text: str, stock: str = STOCK) -> str:
        program = self.program(text)
        Path(program).with_name("stock.py").write_text(stock)
        return program

    def test_a_source_that_is_nested_deeply_is_watched(self) -> None:
        for program in (self.beside("from stock import sell" + THREADS, DEEP), self.program(DEEP + THREADS)):
            ran = run_traced(program)
            self.assertEqual(ran.returncode, Verdict.RACES, ran.stderr)
            self.assertIn("race on stock['left']", ran.stderr)

    def test_a_program_is_watched_whatever_its_file_is_called(self) -> None:
        for name in ("tool", "shop.wsgi", "shop.pyw"):
            with self.subTest(name):
                ran = run_traced(self.named(name, STOCK + THREADS))
                self.assertEqual(ran.returncode, Verdict.RACES, ran.stderr)
                self.assertRegex(ran.stderr, rf"write at \S*{name}:4 in sell")

    def test_a_file_of_another_name_that_is_loaded_or_started_is_no_all_clear(self) -> None:
        for text, due in ((BY_LOADER_OF_A_PROGRAM + THREADS, Verdict.INCOMPLETE), (STARTS_IT, Verdict.RACES), (RUNS_IT, Verdict.INCOMPLETE)):
            with self.subTest(text):
                tool = Path(self.named("tool", f"#!/usr/bin/env python3\n{STOCK}{THREADS}", beside=text))
                tool.chmod(0o755)
                ran = run_traced(str(tool.with_name("program.py")))
                self.assertEqual(ran.returncode, due, ran.stderr)

    def test_a_script_of_the_shell_that_is_started_leaves_a_run_whole(self) -> None:
        tool = Path(self.named("tool", "#!/bin/sh\ntrue\n", beside=RUNS_IT))
        tool.chmod(0o755)
        ran = run_traced(str(tool.with_name("program.py")))
        self.assertEqual(ran.returncode, Verdict.NO_RACE, ran.stderr)

    def named(self, name: str, text: str, beside: str = "") -> str:
        path = Path(self.program(beside)).with_name(name)
        path.write_text(text)
        return str(path)

    def test_a_source_that_the_language_does_not_take_is_told(self) -> None:
        ran = run_traced(self.program(TOO_DEEP))
        self.assertEqual(ran.returncode, 2, ran.stderr)
        self.assertRegex(ran.stderr, r"\Aitc_trace: .*program.py cannot be run: [^\n]*\n\Z")

    def test_a_module_that_is_found_by_its_file_is_watched(self) -> None:
        ran = run_traced(self.beside(BY_SPECIFICATION + THREADS))
        self.assertEqual(ran.returncode, Verdict.RACES, ran.stderr)

    def test_a_module_that_was_loaded_without_hooks_is_no_all_clear(self) -> None:
        for text in (BY_EXEC, BY_PATH, BY_LOADER):
            with self.subTest(text=text):
                ran = run_traced(self.beside(text + THREADS))
                self.assertEqual(ran.returncode, Verdict.INCOMPLETE, ran.stderr)
                told = "itc_trace: incomplete: stock.py was not watched, as it was not imported from a source file"
                self.assertEqual(ran.stderr.splitlines()[0], told)

    def test_a_module_that_cannot_be_rewritten_is_no_all_clear(self) -> None:
        ran = run_traced(self.beside(NOT_REWRITTEN + THREADS))
        self.assertEqual(ran.returncode, Verdict.INCOMPLETE, ran.stderr)
        self.assertIn("itc_trace: incomplete: stock.py runs as it is, and is not watched: ValueError: planted\n", ran.stderr)

    def test_what_is_not_to_be_watched_leaves_a_run_whole(self) -> None:
        ran = run_traced("--watch-nothing", self.beside(BY_EXEC + THREADS))
        self.assertEqual(ran.returncode, Verdict.NO_RACE, ran.stderr)

    def test_a_folder_is_run_as_untraced(self) -> None:
        folder = Path(self.beside("")).parent
        (folder / "__main__.py").write_text("import sys\nfrom stock import sell\nprint(sys.argv, sys.path[0], __name__)" + THREADS)
        ran = run_traced(str(folder), "word")
        self.assertEqual((ran.returncode, ran.stdout), (Verdict.RACES, run_python(str(folder), "word").stdout), ran.stderr)

    def test_an_archive_is_run_as_untraced_and_no_all_clear(self) -> None:
        with tempfile.TemporaryDirectory() as folder:
            archive = str(Path(folder, "shop.zip"))
            with zipfile.ZipFile(archive, "w") as parts:
                parts.writestr("__main__.py", "import sys\nfrom stock import sell\nprint(sys.argv, sys.path[0], __name__)" + THREADS)
                parts.writestr("stock.py", STOCK)
            ran = run_traced(archive, "word")
            self.assertEqual((ran.returncode, ran.stdout), (Verdict.INCOMPLETE, run_python(archive, "word").stdout), ran.stderr)

    def test_each_lambda_of_a_line_keeps_its_own_code(self) -> None:
        ran = run_python(self.program(LAMBDAS))
        self.assertEqual((ran.stdout, ran.stderr), ("5 1 1 2\n", ""))


class Files(ProgramCase):
    """A program that reaches for the package's own files."""

    def test_a_program_that_closes_all_files_is_seen_whole(self) -> None:
        ran = run_traced(self.program(CLOSES_FILES))
        self.assertEqual((ran.returncode, ran.stdout), (Verdict.NO_RACE, "ran\n"), ran.stderr)
        self.assertNotIn("Traceback", ran.stderr)

    def test_a_journal_that_the_program_removed_is_no_all_clear(self) -> None:
        with tempfile.TemporaryDirectory() as folder:
            ran = run_traced(self.program(REMOVES_JOURNAL), TMPDIR=os.fspath(folder))
        self.assertEqual(ran.returncode, Verdict.INCOMPLETE, ran.stderr)
        self.assertIn("itc_trace: incomplete: the journal breaks off", ran.stderr)

    def test_a_journal_that_the_program_emptied_is_no_all_clear(self) -> None:
        with tempfile.TemporaryDirectory() as folder:
            ran = run_traced("--quiet", self.program(EMPTIES_JOURNAL), TMPDIR=os.fspath(folder))
        self.assertEqual(ran.returncode, Verdict.INCOMPLETE, ran.stderr)
        self.assertRegex(ran.stderr, r"itc_trace: incomplete: the journal has \d+ lines where \d+ were written\n")


if __name__ == "__main__":
    unittest.main()
