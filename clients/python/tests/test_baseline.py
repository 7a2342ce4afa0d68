"""Races that are known already fail no run, wherever their lines move, and new ones do."""

from __future__ import annotations

import codecs
import json
import os
import subprocess
import sys
import tempfile
import unittest
from pathlib import Path

from itc_trace.analyse.baseline import read_baseline, write_baseline
from itc_trace.model.finding import Known, KnownSide
from itc_trace.record.faults import Fault

from .support import PACKAGE

SELLING = """import threading
stock = {"left": 2, "sold": 0}
def sell():
    stock["left"] -= 1
threads = [threading.Thread(target=sell) for _ in range(2)]
for thread in threads:
    thread.start()
for thread in threads:
    thread.join()
"""
SELLS = '    stock["left"] -= 1\n'
SIDE = KnownSide("write", "sell", 'stock["left"] -= 1')


class Baselines(unittest.TestCase):
    def setUp(self) -> None:
        self.folder = Path(self.enterContext(tempfile.TemporaryDirectory()))

    def run_here(self, *words: str) -> "subprocess.CompletedProcess[str]":
        environment = {**os.environ, "PYTHONPATH": str(PACKAGE)}
        command = [sys.executable, "-m", "itc_trace", "run", *words, "shop.py"]
        return subprocess.run(command, capture_output=True, text=True, env=environment, cwd=self.folder, timeout=600, check=False)

    def test_a_repository_keeps_a_baseline(self) -> None:
        shop = self.folder / "shop.py"
        shop.write_text(SELLING)
        made = self.run_here("--write-baseline", "known.json")
        self.assertEqual(made.returncode, 66, made.stderr)
        self.assertIn("itc_trace: known.json has 1 race: --baseline known.json fails on others only\n", made.stderr)
        kept = (self.folder / "known.json").read_text()
        for what, text in (("as it was", SELLING), ("lines above it", "import os\n\n\n" + SELLING), ("more spaces", SELLING.replace(" -= 1", "  -=  1"))):
            with self.subTest(what):
                shop.write_text(text)
                again = self.run_here("--baseline", "known.json", "--write-baseline", "again.json")
                self.assertEqual(again.returncode, 0, again.stderr)
                self.assertIn("no new race in this run; 1 in the baseline: ", again.stderr)
                self.assertEqual((self.folder / "again.json").read_text(), kept)
        shop.write_text(SELLING.replace(SELLS, SELLS + '    stock["sold"] += 1\n'))
        fresh = self.run_here("--baseline", "known.json")
        self.assertEqual(fresh.returncode, 66, fresh.stderr)
        self.assertIn("race on stock['sold']", fresh.stderr)
        self.assertNotIn("race on stock['left']", fresh.stderr)
        shop.write_text(SELLING.replace(SELLS, "    pass\n"))
        gone = self.run_here("--baseline", "known.json")
        self.assertEqual(gone.returncode, 0, gone.stderr)
        identity = json.loads(kept)["races"][0]["id"]
        self.assertIn(f"itc_trace: of the baseline did not occur: {identity} (stock['left'])\n", gone.stderr)

    def test_a_run_that_does_not_begin_leaves_the_baseline(self) -> None:
        (self.folder / "known.json").write_text("kept")
        self.assertEqual(self.run_here("--write-baseline", "known.json").returncode, 2)
        self.assertEqual((self.folder / "known.json").read_text(), "kept")

    def test_an_identity_has_all_that_stays_and_nothing_else(self) -> None:
        one = Known("stock['left']", (SIDE, SIDE))
        others = [
            Known("stock['sold']", (SIDE, SIDE)), Known("stock['left']", (SIDE, KnownSide("read", "sell", SIDE.source))),
            Known("stock['left']", (SIDE, KnownSide("write", "buy", SIDE.source))), Known("stock['left']", (SIDE, KnownSide("write", "sell", "other"))),
        ]
        self.assertEqual(len({one.identity, *(other.identity for other in others)}), 5)
        self.assertEqual(one.identity, Known("stock['left']", (SIDE, SIDE)).identity)

    def test_what_is_written_is_read_back(self) -> None:
        file = str(self.folder / "known.json")
        races = [Known("b", (SIDE, SIDE)), Known("a\u00e4", (SIDE,))]
        write_baseline(file, races)
        self.assertEqual(sorted(map(str, read_baseline(file))), sorted(map(str, races)))

    def test_ends_of_lines_and_a_mark_before_them_change_nothing(self) -> None:
        file = self.folder / "known.json"
        write_baseline(str(file), [Known("a\u00e4", (SIDE, SIDE))])
        kept = file.read_bytes()
        for what, written in (("CRLF", kept.replace(b"\n", b"\r\n")), ("a mark", codecs.BOM_UTF8 + kept), ("one line", kept.replace(b"\n", b""))):
            with self.subTest(what):
                file.write_bytes(written)
                self.assertEqual(read_baseline(str(file)), [Known("a\u00e4", (SIDE, SIDE))])

    def test_what_is_no_baseline_is_told(self) -> None:
        file = self.folder / "known.json"
        for text, told in (("", "is no baseline"), ("[" * 100_000, "is no baseline"), ("[]", "is no baseline"), ("{}", "is no baseline"), ('{"version":1,"races":[{}]}', "is no baseline"),
                           ('{"version":2,"races":[]}', "is a baseline of version 2, and not of 1"),
                           ('{"version":2,"kept":"otherwise"}', "is a baseline of version 2, and not of 1"),
                           ('{"version":"1","races":[]}', "is no baseline"), ('{"version":true,"races":[]}', "is no baseline"),
                           ('{"version":1,"races":{}}', "is no baseline"), ('{"version":1,"races":[{"thing":["x"],"sides":[]}]}', "is no baseline"),
                           ('{"version":1,"races":[{"thing":"x","sides":{}}]}', "is no baseline"), ('{"version":1,"races":[7]}', "is no baseline"),
                           ('{"version":1,"races":[{"thing":"x","sides":["write"]}]}', "is no baseline"),
                           ('{"version":1,"races":[{"thing":"x","sides":[{"kind":"a","function":"f","source":[3]}]}]}', "is no baseline"),
                           ('{"version":1,"races":[{"thing":"x","sides":[{"kind":"write"}]}]}', "is no baseline")):
            file.write_text(text)
            with self.subTest(text), self.assertRaisesRegex(Fault, told):
                read_baseline(str(file))
        for name, told in (("no.json", "No such file or directory: --write-baseline no.json makes it"), (".", "Is a directory$")):
            with self.subTest(name), self.assertRaisesRegex(Fault, told):
                read_baseline(name)


if __name__ == "__main__":
    unittest.main()
