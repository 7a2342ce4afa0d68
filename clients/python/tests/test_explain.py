"""What a reader asks of one race is answered: what both tasks did, what they held, and what would have helped."""

from __future__ import annotations

import codecs
import json
import os
import subprocess
import sys
import tempfile
import unittest
from pathlib import Path
from types import SimpleNamespace
from typing import Any, cast

from itc_trace.analyse.benign import read_patterns
from itc_trace.analyse.story import add_stories
from itc_trace.model.finding import RACE, Finding, FoundSide, Story
from itc_trace.model.sources import Sources
from itc_trace.model.verdict import Verdict
from itc_trace.record.journal import Row
from itc_trace.report.as_json import finding_of_object, report_of_json
from itc_trace.report.explaining import NoFinding, benign_line, explained, finding_by
from itc_trace.report.report import Report

from .support import PACKAGE

SHOP = """import queue
import threading

stock = {"left": 2}
lock = threading.Lock()
sold = queue.Queue()

def sell():
    with lock:
        pass
    stock["left"] -= 1
    sold.put(1)

def audit():
    sold.get()
    with lock:
        print(stock["left"] >= 0)

first = threading.Thread(target=sell, name="first")
first.start()
second = threading.Thread(target=sell, name="second")
second.start()
first.join()
third = threading.Thread(target=audit, name="third")
third.start()
second.join()
third.join()
"""


class Stories(unittest.TestCase):
    folder: Path
    kept: tempfile.TemporaryDirectory[str]

    @classmethod
    def setUpClass(cls) -> None:
        cls.kept = tempfile.TemporaryDirectory()
        cls.addClassCleanup(cls.kept.cleanup)
        cls.folder = Path(cls.kept.name)
        (cls.folder / "shop.py").write_text(SHOP)
        ran = cls.run_here("run", "--export", "g", "--json", "r.json", "shop.py")
        assert ran.returncode == 66, ran.stderr

    @classmethod
    def run_here(cls, *words: str) -> "subprocess.CompletedProcess[str]":
        environment = {**os.environ, "PYTHONPATH": str(PACKAGE)}
        command = [sys.executable, "-m", "itc_trace", *words]
        return subprocess.run(command, capture_output=True, text=True, env=environment, cwd=cls.folder, timeout=600, check=False)

    def findings(self) -> list[Finding]:
        return report_of_json((self.folder / "r.json").read_text()).findings

    def selling(self) -> Finding:
        """The race of the two that sell."""
        return next(one for one in self.findings() if {side.task for side in one.sides} == {"first", "second"})

    def test_both_sides_have_their_source_their_locks_and_what_was_around(self) -> None:
        ran = self.run_here("explain", self.selling().identity, "g")
        self.assertEqual((ran.returncode, ran.stderr), (0, ""))
        self.assertTrue(ran.stdout.startswith(f"race on stock['left'] (a dict made at shop.py:4), id {self.selling().identity}\n"), ran.stdout)
        self.assertIn("first: write at shop.py:11 in sell, holding no lock\n", ran.stdout)
        self.assertIn('    > 11      stock["left"] -= 1\n', ran.stdout)
        self.assertRegex(ran.stdout, r"    before  event \d+: release lock \(shop.py:5\) at shop.py:9\n")
        self.assertRegex(ran.stdout, r"    after   event \d+: put item at shop.py:12\n")
        self.assertIn("  - lock (shop.py:5): both tasks use it, and neither holds it here\n", ran.stdout)
        self.assertIn("  - a join: root joins first at shop.py:23, and before second is started at shop.py:22 would be early enough\n", ran.stdout)
        self.assertRegex(ran.stdout, r"  - a queue or an event: behind its touch first does `put item` at shop.py:12, and second takes nothing before")

    def test_the_report_tells_the_same_story_as_the_export(self) -> None:
        for finding in self.findings():
            by_export, by_report = (self.run_here("explain", finding.identity, file) for file in ("g", "r.json"))
            self.assertEqual(by_report.stdout, by_export.stdout)
            self.assertEqual((by_report.returncode, by_report.stderr), (0, ""))

    def test_a_report_that_was_written_anew_tells_the_same(self) -> None:
        identity, kept = self.selling().identity, (self.folder / "r.json").read_bytes()
        whole = self.run_here("explain", identity, "r.json").stdout
        told = json.loads(kept)
        for what, written in (
            ("CRLF", kept.replace(b"\n", b"\r\n")), ("a mark", codecs.BOM_UTF8 + kept), ("one line", json.dumps(told).encode()),
            ("sorted", json.dumps(told, sort_keys=True).encode()),
        ):
            with self.subTest(what):
                (self.folder / "anew.json").write_bytes(written)
                ran = self.run_here("explain", identity, "anew.json")
                self.assertEqual((ran.returncode, ran.stdout, ran.stderr), (0, whole, ""))
        (self.folder / "anew.json").write_text(json.dumps({**told, "version": 2}))
        ran = self.run_here("explain", identity, "anew.json")
        self.assertEqual(ran.returncode, 2)
        self.assertIn("anew.json is no report: it is a report of version 2, and not of 1", ran.stderr)

    def test_a_lock_that_one_side_holds_is_named(self) -> None:
        found = [one for one in self.findings() if "third" in {side.task for side in one.sides} and one.sides[1].function == "audit"]
        self.assertTrue(found, self.findings())
        for one in found:
            self.assertTrue(one.story.orders[0].startswith("lock (shop.py:5): third holds it, and "), one.story)

    def test_the_picture_is_drawn_and_linked(self) -> None:
        finding = self.selling()
        ran = self.run_here("explain", "--picture", "p.html", finding.identity[:6], "g")
        events = "event={}&other={}".format(*(side.event for side in finding.sides))
        self.assertTrue(ran.stdout.endswith(f"In the picture: file://{self.folder.resolve()}/p.html#{events}\n"), ran.stdout)
        self.assertTrue((self.folder / "p.html").read_bytes().startswith(b"<!"))

    def test_the_line_that_is_written_silences_this_race_alone(self) -> None:
        before = self.run_here("races", "g")
        file = self.folder / "benign"
        file.write_text("nothing")  # Without the end of its line.
        ran = self.run_here("explain", "--benign", "benign", self.selling().identity, "g")
        self.assertEqual(ran.stderr, "itc_trace: benign has a line more: --benign benign silences the race\n")
        after = self.run_here("races", "--benign", "benign", "g")
        self.assertRegex(after.stdout, r"; 1 silenced")
        self.assertIn(f"id {self.selling().identity}\n", before.stdout)
        self.assertNotIn(f"id {self.selling().identity}\n", after.stdout)
        again = self.run_here("explain", "--benign", "benign", self.selling().identity, "r.json")
        self.assertIn("benign has the race already", again.stderr)
        self.assertEqual(len(file.read_text().splitlines()), 2)

    def test_what_cannot_be_explained_is_told_with_what_can(self) -> None:
        (self.folder / "broken").write_text("{\n")
        (self.folder / "quiet.py").write_text("print()\n")
        self.run_here("run", "--json", "none.json", "quiet.py")
        identity = self.selling().identity
        for words, said in (
            (["000000000000", "g"], "g has no race 000000000000: its ids are "),
            (["0", "r.json"], "0 is too short for an id: r.json has "),
            ([identity, "none.json"], "none.json has no race"),
            ([identity, "broken"], "broken is no report: it is no report of --json: name the FILE of --json, or an export"),
            ([identity, "nowhere"], "nowhere cannot be read: No such file or directory"),
            ([identity, "shop.py"], "shop.py is no export: name the FILE of --export"),
            ([identity, "r.json", "g.journal"], "the journal g.journal is for an export, and r.json is a report of --json: leave it out"),
            (["--picture", "x.html", identity, "r.json"], "--picture x.html is for an export, and r.json is a report"),
            (["--benign", "g", identity, "g"], "--benign g would overwrite g: name another file"),
            (["--benign", "no/where", identity, "r.json"], "no/where cannot be written: No such file or directory"),
            ([identity], "explain wants REPORT|EXPORT|TENANT"),
        ):
            with self.subTest(words):
                ran = self.run_here("explain", *words)
                self.assertEqual((ran.returncode, ran.stdout), (2, ""), ran.stderr)
                self.assertTrue(ran.stderr.startswith(f"itc_trace: {said}"), ran.stderr)
                self.assertEqual(ran.stderr.count("\n"), 1)


class InParts(unittest.TestCase):
    """A story goes from one part of a run to another, and has only what the program does."""

    def story(self) -> Story:
        rows = [
            Row(3, "early", "stock", "write", "shop.py", 4, "write stock"), Row(5, "early", None, "send", "shop.py", 5, "put item"),
            Row(6, "early", None, "end", None, 0, "end"), Row(9, "ended_threads", None, "join", None, 0, "take result", of="early"),
            Row(2, "early", None, "send", None, 0, "goes on", part=2, of="item_1"), Row(1, "root", None, "spawn", None, 0, "goes on", part=2, of="slow"),
            Row(4, "slow", None, "local", None, 0, "goes on", part=2), Row(7, "slow", None, "local", "shop.py", 8, "wait", part=2),
            Row(8, "slow", "stock", "write", "shop.py", 9, "write stock", part=2), Row(10, "root", None, "join", "shop.py", 12, "join early", part=2, of="early"),
            Row(3, "slow", None, "end", None, 0, "end", part=3),
        ]
        race: Any = SimpleNamespace(example=(rows[0], rows[8]), story=None)
        add_stories([race], rows, Sources())
        return cast(Story, race.story)

    def test_what_a_part_begins_with_and_who_keeps_ended_threads_is_left_out(self) -> None:
        story = self.story()
        self.assertEqual([[(one.part, one.event) for one in side] for side in (*story.before, *story.after)], [[], [(2, 7)], [(1, 5), (1, 6)], [(3, 3)]])
        self.assertIn("a join: root joins early at shop.py:12, and before slow touches it would be early enough", story.orders)

    def test_a_message_to_a_nursery_is_no_order_that_is_meant(self) -> None:
        rows = [
            Row(3, "root", "stock", "write", "shop.py", 4, "write stock"), Row(4, "root", None, "send", "shop.py", 5, "start seller", of="place_1"),
            Row(5, "itc_nursery_1", None, "recv", None, 0, "start seller", of="place_1"),
            Row(6, "itc_nursery_1", None, "spawn", "shop.py", 5, "start seller", of="seller"),
            Row(7, "other", "stock", "write", "shop.py", 9, "write stock"),
        ]
        race: Any = SimpleNamespace(example=(rows[0], rows[4]), story=None)
        add_stories([race], rows, Sources())
        orders = cast(Story, race.story).orders
        self.assertEqual(orders[-1], "a queue or an event: root sends nothing behind its touch")

    def test_an_event_of_another_part_is_told_with_it(self) -> None:
        sides = tuple(FoundSide("write", "shop.py", line, task=task, part=part) for line, task, part in ((4, "early", 1), (9, "slow", 2)))
        told = explained(Finding(RACE, "stock", sides, "nothing orders them", story=self.story()), Report(Verdict.RACES, ""))
        for line in ("after   event 6: end", "before  event 7: wait at shop.py:8", "after   event 3 of part 3: end"):
            self.assertIn(f"    {line}\n", told)


class Prefixes(unittest.TestCase):
    """An identity may be cut short, as long as it is that of one finding."""

    def setUp(self) -> None:
        findings = [Finding(RACE, f"stock[{number}]", (), "nothing orders them") for number in range(2000)]
        groups: dict[str, list[Finding]] = {}
        for finding in findings:
            groups.setdefault(finding.identity[:4], []).append(finding)
        self.pair = next(group for group in groups.values() if len(group) == 2)
        self.alone = next(group[0] for group in groups.values() if len(group) == 1)
        self.report = Report(Verdict.RACES, "2000 races in this run", findings)

    def test_a_prefix_of_one_finding_is_enough_in_letters_of_any_size(self) -> None:
        for prefix in (self.alone.identity[:4], self.alone.identity[:4].upper(), self.alone.identity):
            self.assertIs(finding_by(prefix, self.report, "g"), self.alone)
        one, other = self.pair
        self.assertIs(finding_by(one.identity[:11], self.report, "g"), one)
        self.assertIs(finding_by(other.identity, self.report, "g"), other)

    def test_a_prefix_of_two_names_both_and_no_other(self) -> None:
        one, other = self.pair
        told = f"2 races of g have ids that begin with {one.identity[:4]}: {one.identity} ({one.thing}), {other.identity} ({other.thing})"
        with self.assertRaises(NoFinding) as fault:
            finding_by(one.identity[:4], self.report, "g")
        self.assertEqual(str(fault.exception), told)

    def test_few_of_many_identities_are_listed(self) -> None:
        for identity, told in (("", "nothing is too short for an id: g has "), ("0000000000000", "g has no race 0000000000000: its ids are ")):
            with self.assertRaises(NoFinding) as fault:
                finding_by(identity, self.report, "g")
            self.assertTrue(str(fault.exception).startswith(told), fault.exception)
            self.assertTrue(str(fault.exception).endswith(" (stock[9]) and 1990 more"), fault.exception)


class Twins(unittest.TestCase):
    def test_who_asks_for_one_of_two_races_of_one_identity_is_told_of_both(self) -> None:
        def race(line: int) -> Finding:
            sides = tuple(FoundSide("write", "shop.py", line, "sell", task, begin=line, text=("stock += 1",)) for task in ("one", "other"))
            return Finding(RACE, "stock", sides, "nothing orders them")

        findings = [race(4), race(9), Finding(RACE, "other", race(4).sides, "nothing orders them")]
        self.assertEqual(findings[0].identity, findings[1].identity)
        told = explained(findings[0], Report(Verdict.RACES, "", findings)).splitlines()
        self.assertEqual(
            [line for line in told if "this id" in line],
            ["    the same sources race at shop.py:9 in sell and shop.py:9 in sell: it has this id, too"],
        )


class Lines(unittest.TestCase):
    def test_a_mark_before_the_first_line_is_no_letter_of_it(self) -> None:
        with tempfile.TemporaryDirectory() as folder:
            file = Path(folder, "benign")
            file.write_bytes(codecs.BOM_UTF8 + b"stock\r\nleft shop.py:3\r\n")
            self.assertEqual([(one.thing, one.places) for one in read_patterns(str(file))], [("stock", ()), ("left", ("shop.py:3",))])

    def test_each_line_of_what_is_meant_fits_its_race(self) -> None:
        stored = json.loads((PACKAGE / "tests" / "reports" / "kept.json").read_text())
        findings = [finding_of_object(one) for one in stored["findings"]]
        side = FoundSide("write", "/opt/a b/x.py", 3)
        findings += [Finding(RACE, thing, (side, side), "") for thing in ("#1", "a b", "#", "x['#']", "x*", " ")]
        with tempfile.TemporaryDirectory() as folder:
            for finding in findings:
                file = Path(folder, "benign")
                file.write_text(benign_line(finding) + "\n")
                (pattern,) = read_patterns(str(file))
                self.assertTrue(pattern.fits(finding), benign_line(finding))


if __name__ == "__main__":
    unittest.main()
