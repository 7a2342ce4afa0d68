"""What a project sets holds for each of its runs, typed words win over it, and what is set wrongly is told."""

from __future__ import annotations

import json
import os
import subprocess
import sys
import tempfile
import unittest
from argparse import Namespace
from pathlib import Path

from itc_trace.cli.settings import Settings, read_settings, settings_here
from itc_trace.record.faults import Fault

from .support import PACKAGE

SHOP = """import threading
from vendor.hits import hit
stock = {"left": 2}
def sell():
    stock["left"] -= 1
    hit()
threads = [threading.Thread(target=sell) for _ in range(2)]
for thread in threads:
    thread.start()
for thread in threads:
    thread.join()
"""
HITS = """hits = 0
def hit():
    global hits
    hits += 1
"""
LUCK = """import os, threading, time
lock, stock = threading.Lock(), {"left": 2}
def sell():
    stock["left"] -= 1
    with lock:
        pass
    open("sold", "w").close()
def audit():
    while not os.path.exists("sold"):
        time.sleep(0.01)
    with lock:
        pass
    print(stock["left"])
threads = [threading.Thread(target=work) for work in (sell, audit)]
for thread in threads:
    thread.start()
for thread in threads:
    thread.join()
os.unlink("sold")
"""
CYCLE = """import threading, time
one_lock = threading.Lock()
other_lock = threading.Lock()
def forth():
    with one_lock:
        with other_lock:
            pass
def back():
    with other_lock:
        with one_lock:
            pass
threads = [threading.Thread(target=work) for work in (forth, back)]
for thread in threads:
    thread.start()
    time.sleep(0.3)
for thread in threads:
    thread.join()
"""


class Tables(unittest.TestCase):
    def setUp(self) -> None:
        self.folder = Path(self.enterContext(tempfile.TemporaryDirectory()))

    def read(self, text: str) -> Settings:
        file = self.folder / "pyproject.toml"
        file.write_text(f"[tool.itc_trace]\n{text}")
        return read_settings(file)

    def test_all_keys_are_read(self) -> None:
        here = os.path.relpath(self.folder)
        found = self.read(
            'watch = ["requests"]\nexclude = ["vendor/*"]\nbenign = "meant"\nbaseline = "known.json"\nfail_on = "possible"\nruns = 3\n'
            'confirm = true\n'
            '[tool.itc_trace.formats]\njson = "-"\nsarif = "out/r.sarif"\ngithub = true\n',
        )
        self.assertEqual(found, Settings(
            ["requests"], ["vendor/*"], [f"{here}/meant"], f"{here}/known.json", "possible", 3, True,
            {"json": "-", "sarif": f"{here}/out/r.sarif", "github": "-"},
        ))

    def test_no_table_sets_nothing(self) -> None:
        file = self.folder / "pyproject.toml"
        for text in ("", "[project]\nname = 'x'\n", "[tool.mypy]\nstrict = true\n"):
            file.write_text(text)
            self.assertEqual(read_settings(file), Settings())

    def test_what_is_set_wrongly_is_one_clear_line(self) -> None:
        for text, said in (
            ("wach = []", r"\[tool.itc_trace\]: there is no key wach: did you mean watch\?"),
            ("x = 1", r"there is no key x: the keys are watch, exclude, benign, baseline, fail_on, runs, confirm, formats"),
            ("watch = 'requests'", "watch is a list of texts that are not empty"),
            ("watch = [1]", "watch is a list of texts"), ("exclude = ['']", "exclude is a list of texts that are not empty"),
            ("benign = 7", "benign is a list of texts"), ("baseline = ''", "baseline is a text that is not empty"),
            ("fail_on = 'posible'", "fail_on is 'posible', which is none of 'race', 'possible'"), ("fail_on = []", "fail_on is"),
            ("runs = 0", "runs is a number from 1 to 10000"), ("runs = true", "runs is a number"), ("runs = 1.5", "runs is a number"),
            ("confirm = 1", "confirm is true or false"), ("formats = 'json'", "formats is a table, as"), ("formats = { xml = 'x' }", "formats has no xml: the formats are json, sarif, github"),
            ("formats = { github = 'x' }", "formats.github is true or false"), ("formats = { json = true }", "formats.json is a text"),
            ("runs = ", "is no TOML: "),
        ):
            with self.subTest(text), self.assertRaisesRegex(Fault, said) as raised:
                self.read(text)
            self.assertNotIn("\n", str(raised.exception))

    def test_a_table_that_is_spelt_otherwise_is_told(self) -> None:
        for name in ("itc-trace", "ITC_trace", "itctrace", '"itc.trace"'):
            with self.subTest(name):
                file = self.folder / "pyproject.toml"
                file.write_text(f"[tool.{name}]\nruns = 2\n[tool.itc]\nruns = 7\n")
                with self.assertRaisesRegex(Fault, r"there is no table \[tool\..*\]: did you mean \[tool.itc_trace\]\?"):
                    read_settings(file)

    def test_what_is_nested_too_deep_is_no_toml(self) -> None:
        with self.assertRaisesRegex(Fault, "is no TOML"):
            self.read("watch = " + "[" * 100_000)

    def test_the_nearest_file_above_counts(self) -> None:
        self.read("runs = 2")
        within = self.folder / "a" / "b"
        within.mkdir(parents=True)
        self.assertEqual(settings_here(str(within)).runs, 2)
        (self.folder / "a" / "pyproject.toml").write_text("")
        self.assertEqual(settings_here(str(within)).runs, 1)

    def test_typed_words_win(self) -> None:
        settings = Settings(["a"], ["x"], ["meant"], "known", "possible", 5, True)
        typed = Namespace(
            watch=["b"], exclude=["y"], benign=["own"], baseline="other", fail_on="race", runs=1, confirm=False, watch_nothing=False,
        )
        before = dict(vars(typed))
        settings.fill(typed)
        self.assertEqual(vars(typed), before)
        untyped = Namespace(
            watch=None, exclude=None, benign=[], baseline=None, fail_on=None, runs=None, confirm=None, watch_nothing=False,
        )
        settings.fill(untyped)
        self.assertEqual(vars(untyped), {
            "watch": ["a"], "exclude": ["x"], "benign": ["meant"], "baseline": "known", "fail_on": "possible", "runs": 5, "confirm": True,
            "watch_nothing": False,
        })
        few = Namespace(fail_on=None)
        settings.fill(few)
        self.assertEqual(vars(few), {"fail_on": "possible"})


class Runs(unittest.TestCase):
    def setUp(self) -> None:
        self.folder = Path(self.enterContext(tempfile.TemporaryDirectory()))
        (self.folder / "vendor").mkdir()
        (self.folder / "vendor" / "hits.py").write_text(HITS)
        (self.folder / "shop.py").write_text(SHOP)

    def set(self, text: str) -> None:
        (self.folder / "pyproject.toml").write_text(f"[tool.itc_trace]\n{text}\n")

    def run_here(self, *words: str, cwd: str = ".") -> "subprocess.CompletedProcess[str]":
        environment = {**os.environ, "PYTHONPATH": str(PACKAGE)}
        command = [sys.executable, "-m", "itc_trace", *words]
        return subprocess.run(command, capture_output=True, text=True, env=environment, cwd=self.folder / cwd, timeout=600, check=False)

    def test_files_that_are_excluded_are_not_watched_and_the_last_line_says_so(self) -> None:
        whole = self.run_here("run", "shop.py")
        self.assertIn("race on vendor.hits.hits ", whole.stderr)
        for words, text in ((["--exclude", "vendor/*"], ""), ([], 'exclude = ["vendor/*"]')):
            self.set(text)
            ran = self.run_here("run", *words, "shop.py")
            self.assertNotIn("hits.hits", ran.stderr)
            self.assertIn("race on stock['left']", ran.stderr)
            self.assertRegex(ran.stderr, r"\nitc_trace: 1 race in this run; not looked into: files at vendor/\*: [^\n]*\n\Z")

    def test_a_baseline_is_made_and_used_by_the_settings_from_any_folder(self) -> None:
        self.set('baseline = "known.json"\nformats = { json = "r.json" }')
        made = self.run_here("run", "--write-baseline", "known.json", "shop.py")
        self.assertEqual(made.returncode, 66, made.stderr)
        ran = self.run_here("run", "../shop.py", cwd="vendor")
        self.assertEqual(ran.returncode, 0, ran.stderr)
        self.assertIn("in the baseline", ran.stderr)
        self.assertEqual(json.loads((self.folder / "r.json").read_text())["verdict"], "NO_RACE")

    def test_a_baseline_that_is_set_and_missing_is_a_fault(self) -> None:
        self.set('baseline = "known.json"')
        ran = self.run_here("run", "shop.py")
        self.assertEqual((ran.returncode, ran.stdout), (2, ""))
        self.assertEqual(ran.stderr, "itc_trace: known.json cannot be read: No such file or directory: --write-baseline known.json makes it\n")

    def test_runs_and_what_fails_are_taken_from_the_settings(self) -> None:
        (self.folder / "luck.py").write_text(LUCK)
        self.set('fail_on = "possible"')
        ran = self.run_here("run", "luck.py")
        self.assertEqual(ran.returncode, 66, ran.stderr)
        self.assertIn("; 1 possible", ran.stderr)
        self.assertEqual(self.run_here("run", "--fail-on", "race", "luck.py").returncode, 0)
        self.set("runs = 2")
        self.assertIn(" in 2 runs", self.run_here("run", "--no-shake", "shop.py").stderr)
        self.assertIn(" in this run", self.run_here("run", "--runs", "1", "shop.py").stderr)

    def test_confirming_is_taken_from_the_settings(self) -> None:
        (self.folder / "cycle.py").write_text(CYCLE)
        self.set("confirm = true")
        ran = self.run_here("run", "cycle.py")
        self.assertEqual(ran.returncode, 66, ran.stderr)
        self.assertIn("itc_trace: confirmed deadlock on one_lock and other_lock ", ran.stderr)
        ran = self.run_here("run", "--no-confirm", "cycle.py")
        self.assertEqual(ran.returncode, 0, ran.stderr)
        self.assertIn("itc_trace: possible deadlock on one_lock and other_lock ", ran.stderr)

    def test_a_wrong_key_ends_the_command_before_the_program_runs(self) -> None:
        self.set("wach = []")
        (self.folder / "shop.py").write_text("print('ran')\n")
        ran = self.run_here("run", "shop.py")
        self.assertEqual((ran.returncode, ran.stdout), (2, ""))
        self.assertEqual(ran.stderr, "itc_trace: pyproject.toml: [tool.itc_trace]: there is no key wach: did you mean watch?\n")


if __name__ == "__main__":
    unittest.main()
