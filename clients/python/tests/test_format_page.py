"""The page of the formats has each key of a report, a baseline and a journal once, and no other one."""

from __future__ import annotations

import json
import os
import re
import subprocess
import sys
import tempfile
import unittest
from collections import Counter
from collections.abc import Iterator
from pathlib import Path
from typing import Any

from itc_trace.analyse import baseline
from itc_trace.analyse.baseline import write_baseline
from itc_trace.record.journal import KEYS, read_line
from itc_trace.report import as_json
from itc_trace.report.as_json import as_object

from .support import PACKAGE
from .test_report import stored

PAGE = PACKAGE.parent.parent / "docs" / "format.md"
NAME = re.compile(r"`(\w+)`")
CODE = re.compile(r"`(\{[^`]*\})`")

BUSY = """import asyncio, multiprocessing, queue, threading
stock, lock, other = {"left": 2}, threading.Lock(), threading.Lock()
condition, items, signal = threading.Condition(lock), queue.Queue(), threading.Lock()
signal.acquire()
def sell():
    with lock:
        with other:
            stock["left"] -= 1
        with condition:
            condition.wait(0.01)
        items.put(1)
def count():
    exec("1")
    signal.acquire()
    items.get()
async def turn():
    stock["turn"] = stock.get("turn", 0)
    await asyncio.sleep(0)
async def both():
    await asyncio.gather(turn(), turn())
if __name__ == "__main__":
    condition = threading.Condition()
    threads = [threading.Thread(target=sell), threading.Thread(target=count)]
    for thread in threads: thread.start()
    signal.release()
    for thread in threads: thread.join()
    asyncio.run(both())
    child = multiprocessing.get_context("fork").Process(target=stock.copy)
    child.start()
    child.join()
    other.acquire()
"""
OF_OTHER_RUNS = {
    "shared": '{"event":7,"task":"root","thing":null,"kind":"local","file":"a","line":1,"label":"x","shared":[0]}',
    "guard": '{"event":7,"task":"root","thing":null,"kind":"send","file":"a","line":1,"label":"x","guard":"k"}',
    "gives": '{"event":7,"task":"root","thing":null,"kind":"local","file":"a","line":1,"label":"x","gives":"q"}',
    "asked": '{"event":7,"task":"root","thing":null,"kind":"recv","file":"a","line":1,"label":"x","asked":"is_set"}',
    "behind": '{"event":7,"task":"root","thing":null,"kind":"recv","file":"a","line":1,"label":"x","behind":["a",1,9,[[2,3]],["f"]]}',
    "again": '{"event":7,"task":"root","thing":null,"kind":"local","file":"a","line":1,"label":"x","again":"send event_1"}',
    "permit": '{"event":7,"task":"root","thing":null,"kind":"send","file":"a","line":1,"label":"x","permit":["4",2]}',
    **dict.fromkeys(("permits", "begun", "given"), '{"permits":"4","begun":0,"given":{"root":1}}'),
    "undoes": '{"event":7,"task":"root","thing":"x","kind":"addition","file":"a","line":1,"label":"x","undoes":"key"}',
    "aside": '{"aside":"t","name":"t","group":"t","made":"","rows":[[7,1,"root","read","s",[],0,0]]}',
    "rows": '{"aside":"t","name":"t","group":"t","made":"","rows":[[7,1,"root","read","s",[],0,0]]}',
    "site": '{"site":"s","file":"a","line":1,"function":"f"}', "unseen": '{"unseen":"full","text":"it is"}', "text": '{"unseen":"full","text":"it is"}',
    "border": '{"border":2,"positions":[[7,1]],"tasks":[7]}', "positions": '{"border":2,"positions":[[7,1]],"tasks":[7]}',
    "tasks": '{"border":2,"positions":[[7,1]],"tasks":[7]}', "process": '{"process":"store","tag":"store_"}', "tag": '{"process":"store","tag":"store_"}',
    **dict.fromkeys(("looked_at", "things", "places"), '{"looked_at":"java","things":1,"places":2}'),
    "signal": '{"signal":"k"}', "test": '{"test":"ShopTest.sells()","task":"a"}', "path": '{"source":"a","lines":{"1":"x"},"path":"b/a"}', "part": '{"event":7,"task":"root","thing":null,"kind":"local","file":"a","line":1,"label":"x","part":2}',
    **dict.fromkeys(("deadlock", "holds", "held_at", "wanted_at"), '{"deadlock":[{"task":"a","holds":"k","held_at":"a:1","wants":"m","wanted_at":"a:2"}]}'),
}
"""Keys that the run below does not tell, each in a line that has it."""


def section(title: str) -> str:
    text = PAGE.read_text(encoding="utf-8")
    return text.partition(f"\n## {title}\n")[2].partition("\n## ")[0]


def tables(text: str) -> list[dict[str, str]]:
    """Each table of keys: what stands beside each of them."""
    found: list[dict[str, str]] = []
    for line in text.splitlines():
        if line.startswith("| Key |"):
            found.append({})
        elif line.startswith("| `") and found:
            keys, *beside = line.strip("| ").split(" | ")
            found[-1].update({key: " ".join(beside) for key in NAME.findall(keys)})
    return found


class Reports(unittest.TestCase):
    maxDiff = None

    def setUp(self) -> None:
        self.written = as_object(stored())
        self.findings = [one for name in ("findings", "silenced", "known") for one in self.written[name]]
        self.sides = [side for finding in self.findings for side in finding["sides"]]

    def assert_all(self, objects: list[dict[str, Any]], keys: set[str]) -> None:
        self.assertTrue(objects)
        for one in objects:
            self.assertEqual(set(one), keys)

    def test_each_key_stands_once_and_is_written(self) -> None:
        report, finding, side = tables(section("Reports"))
        self.assert_all([self.written], set(report))
        self.assert_all(self.findings, set(finding))
        like_rows = section("Reports").partition("A side has ")[2].partition(" as a row")[0]
        self.assertFalse(set(side) & set(NAME.findall(like_rows)))
        self.assert_all(self.sides, {*side, *NAME.findall(like_rows)})
        self.assertIn(f"`{as_json.VERSION}`", report["version"])

    def test_keys_within_are_named_beside_it(self) -> None:
        report, finding, side = tables(section("Reports"))
        self.assertEqual({*NAME.findall(report["counts"])}, {"runs", "places", "things", "events", "tests"})
        for name in ("gone", "unseen", "passed_over"):
            self.assert_all(self.written[name], set(NAME.findall(report[name])))
        self.assert_all([one["runs"] for one in self.findings if one["runs"] is not None], set(NAME.findall(finding["runs"])))
        for name in ("before", "after"):
            self.assert_all([step for one in self.sides for step in one[name]], set(NAME.findall(side[name])))

    def test_a_baseline_has_the_keys_that_the_page_has(self) -> None:
        with tempfile.TemporaryDirectory() as folder:
            file = Path(folder, "known.json")
            write_baseline(str(file), [one.known_as for one in stored().findings])
            written = json.loads(file.read_text(encoding="utf-8"))
        told = dict(re.findall(r"^\| `([\w\[\].]+)` \| (.*) \|$", section("Baselines"), re.MULTILINE))
        self.assertEqual({*written, *(f"races[].{key}" for key in written["races"][0])}, set(told))
        self.assert_all([side for one in written["races"] for side in one["sides"]], set(NAME.findall(told["races[].sides"])))
        self.assertEqual(told["version"], f"`{baseline.VERSION}`")


class Journals(unittest.TestCase):
    def documented(self) -> Counter[str]:
        """The keys that the page tells, each as often as it does so by a table or by words of its own."""
        text = section("Journals")
        found = Counter(key for table in tables(text) for key in table)
        lines = [*CODE.findall(text), *re.findall(r"[Aa] line (?:has|with) `\w+`(?: and `\w+`)?|The line has `\w+`|of a cycle that has closed: [^.]*", text)]
        for line in lines:
            keys = set(re.findall(r'"(\w+)":', line)) or set(NAME.findall(line))
            found.update(key for key in keys if not key.isdigit() and key not in found)
        return found

    def written(self) -> Iterator[str]:
        with tempfile.TemporaryDirectory() as folder:
            Path(folder, "busy.py").write_text(BUSY)
            words = [sys.executable, "-m", "itc_trace", "run", "--export", "g", "busy.py"]
            ran = subprocess.run(
                words, capture_output=True, text=True, cwd=folder, env={**os.environ, "PYTHONPATH": str(PACKAGE)}, timeout=600, check=False,
            )
            self.assertIn("; not looked into: exec at busy.py:13", ran.stderr)
            for line in Path(folder, "g.journal").read_text(encoding="utf-8").splitlines():
                yield from json.loads(line)

    def test_each_key_of_a_journal_is_told_and_each_that_is_told_is_read(self) -> None:
        documented, written = self.documented(), set(self.written())
        self.assertEqual(written - set(documented), set())
        self.assertEqual(set(KEYS) - set(documented), set())
        self.assertEqual(set(documented) - written - set(OF_OTHER_RUNS), set())
        self.assertEqual({key for key, count in documented.items() if count > 1}, set())
        for key, line in OF_OTHER_RUNS.items():
            self.assertIn(f'"{key}":', line)
            self.assertIsNotNone(read_line(line), line)

    def test_a_key_that_is_not_known_is_passed_over_and_a_line_that_is_not_known_is_told(self) -> None:
        row = '{"event":7,"task":"root","thing":null,"kind":"local","file":"a","line":1,"label":"x"}'
        self.assertEqual(read_line(row), read_line(row.replace('"event"', '"later":[1],"event"')))
        self.assertIsNone(read_line('{"later":1}'))


if __name__ == "__main__":
    unittest.main()
