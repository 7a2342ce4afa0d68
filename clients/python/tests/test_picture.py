"""The page of a picture has the races of the run, with their lines of source, and knows which processes have ended."""

from __future__ import annotations

import base64
import gzip
import json
import re
import subprocess
import sys
import tempfile
import unittest
from pathlib import Path
from typing import Any

from itc_trace import Verdict

from .support import PACKAGE, run_python, run_traced
from .test_files import CLEAN, RACING
from .test_format_page import OF_OTHER_RUNS

TILL = """
import itc_trace
itc_trace.touch("ledger", write=True, across=True)
"""
LONG = """
import queue
import threading

stock, jobs, done = {"left": 2}, queue.Queue(), queue.Queue()

def sell():
    stock["left"] -= 1
    for _ in range(200):
        jobs.get()
        done.put(1)

def feed():
    stock["left"] -= 1
    for _ in range(200):
        jobs.put(1)
        done.get()

threads = [threading.Thread(target=sell), threading.Thread(target=feed)]
for thread in threads:
    thread.start()
for thread in threads:
    thread.join()
"""
SYSTEM = """
[process.till]
command = ["python3", "till.py"]
[process.stock]
command = ["python3", "till.py"]
"""


def carried(page: Path, name: str) -> list[dict[str, Any]]:
    """The rows that the page carries there. How many lines a process has written is left out."""
    packed = re.search(f'id="{name}">([^<]*)<', page.read_text())
    assert packed is not None
    rows = [json.loads(line) for line in gzip.decompress(base64.b64decode(packed[1])).decode().splitlines()]
    return [{key: value for key, value in row.items() if key != "lines"} if "end" in row else row for row in rows]


@unittest.skipUnless((PACKAGE.parent.parent / "picture").exists(), "the command is in the repository")
class Pictures(unittest.TestCase):
    def setUp(self) -> None:
        self.folder = Path(self.enterContext(tempfile.TemporaryDirectory()))
        self.page, self.export = self.folder / "page.html", self.folder / "trace"

    def program(self, text: str) -> str:
        (self.folder / "shop.py").write_text(text)
        return str(self.folder / "shop.py")

    def assert_has_the_race(self, told: str) -> None:
        _, race = carried(self.page, "carriedRaces")
        self.assertEqual((race["why"], race["possible"]), ("nothing orders them", False))
        events, times = [side["event"] for side in race["sides"]], "once" if race["times"] == 1 else f"{race['times']} times"
        self.assertIn(f"nothing orders them; {times}, as events {events[0]} and {events[1]}; id ", told)
        self.assertIn(f"{self.page}#event={events[0]}&other={events[1]}", told)
        for side in race["sides"]:
            self.assertEqual(side["text"][side["line"] - side["begin"]], '    stock["left"] -= 1')
            self.assertEqual((side["file"], side["function"]), (str(self.folder / "shop.py"), "sell"))
            self.assertEqual(len(side["text"]), 7)

    def test_run_and_races_hand_over_each_race(self) -> None:
        ran = run_traced("--export", str(self.export), "--picture", str(self.page), self.program(RACING))
        self.assertEqual(ran.returncode, Verdict.RACES, ran.stderr)
        self.assert_has_the_race(ran.stderr)
        self.page.unlink()
        again = run_python("-m", "itc_trace", "races", "--picture", str(self.page), str(self.export), f"{self.export}.journal")
        self.assertEqual((again.returncode, again.stdout), (Verdict.RACES, ran.stderr))
        self.assert_has_the_race(again.stdout)
        self.assertEqual(carried(self.page, "labels")[-2:], [{"end": True}, {"end": True, "task": None}])

    def test_there_is_none_of_a_clean_run(self) -> None:
        ran = run_traced("--picture", str(self.page), self.program(CLEAN))
        self.assertEqual(ran.returncode, Verdict.NO_RACE, ran.stderr)
        self.assertEqual(carried(self.page, "carriedRaces"), [{"races": 0, "possible": 0, "unseen": []}])
        self.assertEqual(carried(self.page, "carriedAbout"), [{"program": "shop.py"}])

    def test_races_of_a_baseline_are_counted_and_the_page_is_named(self) -> None:
        program, known = self.program(RACING), str(self.folder / "known.json")
        run_traced("--write-baseline", known, program)
        count = len(json.loads(Path(known).read_text())["races"])
        ran = run_traced("--baseline", known, "--picture", str(self.page), program)
        self.assertEqual(ran.returncode, Verdict.NO_RACE, ran.stderr)
        self.assertEqual(carried(self.page, "carriedRaces"), [{"races": 0, "possible": 0, "unseen": [], "known": count}])
        *_, named, last = ran.stderr.splitlines()
        self.assertEqual(named, f"itc_trace: the picture is file://{self.page}")
        self.assertRegex(last, f"^itc_trace: no new race in this run; {count} in the baseline: ")

    def test_a_run_in_parts_has_one_page_with_all_of_them(self) -> None:
        ran = run_traced("--part-events", "300", "--export", str(self.export), "--picture", str(self.page), self.program(LONG))
        self.assertEqual(ran.returncode, Verdict.RACES, ran.stderr)
        exports = self.export.read_text().split()
        self.assertGreater(len(exports), 1)
        self.assertEqual(carried(self.page, "carriedAbout"), [{"parts": len(exports), "program": "shop.py"}])
        head, *races = carried(self.page, "carriedRaces")
        self.assertEqual(head["races"], len(races))
        for number, name in enumerate(exports, 1):
            events = [row["event"] for row in carried(self.page, "labels" if number == 1 else f"labels-{number}") if "event" in row]
            self.assertEqual(max(events), len((self.folder / name).read_text().splitlines()) - 1)
        again = self.folder / "again.html"
        journal = self.folder / "journal"
        run_traced("--part-events", "300", "--journal", str(journal), self.program(LONG))
        told = run_python("-m", "itc_trace", "races", "--picture", str(again), str(journal))
        self.assertEqual(told.returncode, Verdict.RACES, told.stderr)
        self.assertGreater(carried(again, "carriedAbout")[0]["parts"], 1)

    def test_a_page_that_cannot_be_written_is_told_first(self) -> None:
        run_traced("--export", str(self.export), self.program(CLEAN))
        ran = run_python("-m", "itc_trace", "races", "--picture", str(self.folder), str(self.export), f"{self.export}.journal")
        self.assertEqual((ran.returncode, ran.stdout), (2, ""))
        self.assertIn("it is a folder", ran.stderr)

    def test_a_source_that_is_shorter_by_now_has_no_lines(self) -> None:
        program = self.program(RACING)
        run_traced("--export", str(self.export), program)
        Path(program).write_text("\n")
        journal = Path(f"{self.export}.journal")
        journal.write_text("".join(line for line in journal.read_text().splitlines(True) if not line.startswith('{"source"')))
        run_python("-m", "itc_trace", "races", "--picture", str(self.page), str(self.export), str(journal))
        _, race = carried(self.page, "carriedRaces")
        self.assertEqual([(side["begin"], side["text"]) for side in race["sides"]], [(0, [])] * 2)

    def test_a_program_that_leaves_a_lock_has_its_page(self) -> None:
        ran = run_traced("--picture", str(self.page), self.program(f"{RACING}lock.acquire()\n"))
        self.assertIn("itc_trace: left at the end: lock (", ran.stderr)
        self.assert_has_the_race(ran.stderr)

    def test_the_page_is_made_whatever_a_journal_says_of_the_whole(self) -> None:
        """Such as what one task alone has touched, or a cycle that has closed."""
        run_traced("--export", str(self.export), self.program(CLEAN))
        rows = [line for line in Path(f"{self.export}.journal").read_text().splitlines(True) if line.startswith('{"event"')]
        journal = self.folder / "told"
        for line in {*OF_OTHER_RUNS.values(), '{"left":"lock that is never released","place":"shop.py:7"}', '{"child":"a","begun":"shop"}'}:
            with self.subTest(line):
                journal.write_text("".join([*rows, f"{line}\n", '{"end":true}\n']))
                with open(self.export, "rb") as export, open(self.page, "wb") as page:
                    command = [sys.executable, str(PACKAGE.parent.parent / "picture"), "--labels", str(journal)]
                    drawn = subprocess.run(command, stdin=export, stdout=page, stderr=subprocess.PIPE, text=True, check=False)
                self.assertEqual((drawn.returncode, drawn.stderr), (0, ""))
                self.assertEqual(carried(self.page, "labels")[-1], {"end": True})
        journal.write_text("".join([*rows, '{"later":1}\n']))
        with open(self.export, "rb") as export:
            refused = subprocess.run(command, stdin=export, capture_output=True, text=True, check=False)
        self.assertEqual((refused.returncode, refused.stdout), (2, ""))
        self.assertIn(f"line {len(rows) + 1} is no line of a journal", refused.stderr)

    def test_a_system_tells_of_each_process_that_it_ended(self) -> None:
        (self.folder / "till.py").write_text(TILL)
        (self.folder / "system.toml").write_text(SYSTEM)
        ran = run_python("-m", "itc_trace", "system", "--picture", str(self.page), str(self.folder / "system.toml"))
        self.assertEqual(ran.returncode, Verdict.RACES, ran.stderr)
        _, race = carried(self.page, "carriedRaces")
        self.assertEqual(sorted(side["task"] for side in race["sides"]), ["stock", "till"])
        told = [row["label"] if "label" in row else row for row in carried(self.page, "labels")]
        end = {"end": True}
        for process in ("till", "stock"):
            place = told.index(f"start process {process}")
            self.assertEqual(told[place : place + 3], [f"start process {process}", "write ledger", end])
        self.assertEqual(told[-1], {"end": True, "task": None})
        self.assertEqual(carried(self.page, "carriedAbout"), [{"program": "system.toml"}])


if __name__ == "__main__":
    unittest.main()
