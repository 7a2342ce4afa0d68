"""What takes the list of races in: each format says what was found, all of it, and is well formed."""

from __future__ import annotations

import json
import os
import re
import subprocess
import sys
import tempfile
import unittest
from collections.abc import Callable, Iterator
from dataclasses import replace
from pathlib import Path
from typing import Any
from unittest import mock
from urllib.parse import unquote_to_bytes

from itc_trace.analyse.benign import read_patterns
from itc_trace.model.finding import Finding, FoundSide
from itc_trace.model.readable import readable
from itc_trace.model.verdict import Cause, Unseen, Verdict
from itc_trace.report.as_json import NoReport, json_text, report_of_json
from itc_trace.report.explaining import benign_line, explained
from itc_trace.report.formats import FORMATS
from itc_trace.report.github import github
from itc_trace.report.race_rows import race_rows
from itc_trace.report.report import Report
from itc_trace.report.sarif import sarif
from itc_trace.report.style import TerminalStyle
from itc_trace.report.text import Shown, link, text

from .sarif_form import faults
from .support import PACKAGE

STORED = PACKAGE / "tests" / "reports"
SELLING = """import threading
stock = {"left": 2}
def sell():
    stock["left"] -= 1
threads = [threading.Thread(target=sell) for _ in range(2)]
for thread in threads:
    thread.start()
for thread in threads:
    thread.join()
"""
SYSTEM = '[process.shop]\ncommand = ["python3", "shop.py"]\n'


def stored() -> Report:
    return report_of_json((STORED / "kept.json").read_text(encoding="utf-8"))


class Formats(unittest.TestCase):
    """One stored report: a race, one of tasks of a loop in two parts, a possible one, and all that stands beside."""

    maxDiff = None

    def assert_stored(self, name: str, written: str) -> None:
        self.assertEqual(written, (STORED / name).read_text(encoding="utf-8"))

    def test_json_is_read_back_and_written_the_same(self) -> None:
        self.assert_stored("kept.json", json_text(stored()))

    def test_the_text_has_each_finding_with_its_identity(self) -> None:
        told = text(stored())
        self.assert_stored("kept.txt", told + "\n")
        for finding in stored().findings:
            self.assertIn(f"; id {finding.identity}\n", told)

    def test_sarif_is_as_stored_and_well_formed(self) -> None:
        self.assert_stored("kept.sarif", sarif(stored()))
        self.assertEqual(faults(json.loads(sarif(stored()))), [])

    def test_sarif_has_both_places_and_what_stays_when_lines_move(self) -> None:
        report = stored()
        results = json.loads(sarif(report))["runs"][0]["results"]
        self.assertEqual(len(results), len(report.all_findings))
        for finding, result in zip(report.all_findings, results, strict=True):
            self.assertEqual(list(result["partialFingerprints"].values()), [finding.identity])
            places = [*result["locations"], *result["relatedLocations"]]
            lines = sorted(place["physicalLocation"]["region"]["startLine"] for place in places if "physicalLocation" in place)
            self.assertEqual(lines, sorted(side.line for side in finding.sides if side.file))
        self.assertEqual([result.get("suppressions") for result in results].count(None), len(report.findings))

    def test_each_rule_of_the_form_is_looked_at(self) -> None:
        """What breaks one is found."""
        def result(log: Any) -> Any:
            return log["runs"][0]["results"][0]

        def place(log: Any) -> Any:
            return result(log)["locations"][0]["physicalLocation"]

        breaks: dict[str, Callable[[Any], object]] = {
            "version": lambda log: log.update(version="2.0.0"), "schema": lambda log: log.update({"$schema": "https://x/sarif-2.0.0.json"}),
            "no runs": lambda log: log.pop("runs") and log.update(runs=[{"tool": {}}]),
            "columns": lambda log: log["runs"][0].update(columnKind="bytes"), "no name": lambda log: log["runs"][0]["tool"]["driver"].pop("name"),
            "rule": lambda log: result(log).update(ruleIndex=1), "message": lambda log: result(log).pop("message"),
            "line": lambda log: place(log)["region"].update(startLine=0), "blank": lambda log: place(log)["artifactLocation"].update(uri="a b.py"),
            "letters": lambda log: place(log)["artifactLocation"].update(uri="l\u00e4den.py"),
            "base": lambda log: place(log)["artifactLocation"].update(uriBaseId="HERE"), "whole": lambda log: place(log)["artifactLocation"].pop("uriBaseId"),
            "no slash": lambda log: log["runs"][0]["originalUriBaseIds"]["SRCROOT"].update(uri="file:///work"),
            "place": lambda log: result(log)["message"].update(text="[a](7)"), "link": lambda log: result(log)["message"].update(text="x['a](b)']"),
            "brace": lambda log: result(log)["message"].update(text="x{0}"), "bell": lambda log: result(log)["message"].update(text="\a"),
            "bracket": lambda log: result(log)["message"].update(text="[a[0]](1)"),
            "note": lambda log: log["runs"][0]["invocations"][0]["toolExecutionNotifications"][0]["message"].update(text="\x1b[1m"),
            "ids": lambda log: result(log)["relatedLocations"][0].update(id=0), "fingerprint": lambda log: result(log).update(partialFingerprints={"a": "b"}),
            "twice": lambda log: result(log)["relatedLocations"].append(dict(result(log)["relatedLocations"][0])),
        }
        for name, spoil in breaks.items():
            with self.subTest(name):
                log = json.loads(sarif(stored()))
                spoil(log)
                try:
                    self.assertNotEqual(faults(log), [])
                except KeyError:
                    pass  # It is not even there to be looked at.

    def test_brackets_and_braces_of_names_are_told_as_they_are(self) -> None:
        lock = Finding("deadlock", "locks[0] and locks['{1}']", tuple(
            FoundSide(kind, "shop.py", line, "work", task, line) for line, (kind, task) in
            enumerate((("holds locks[0]", "one"), ("wants locks['{1}']", "one"), ("holds a\\b", "two"), ("wants c", "two")), 1)
        ), "each waits for {lock} of the other")
        log = json.loads(sarif(Report(Verdict.RACES, "1 deadlock in this run", [lock], folder="/work")))
        self.assertEqual(faults(log), [])
        self.assertEqual(
            log["runs"][0]["results"][0]["message"]["text"],
            "deadlock on locks[0] and locks['{{1}}']: holds locks[0] by one, and [wants locks\\['{{1}}'\\] by one](1), "
            f"[holds a\\\\b by two](2), [wants c by two](3): each waits for {{{{lock}}}} of the other (id {lock.identity})",
        )

    def test_what_a_key_has_is_no_link(self) -> None:
        report = stored()
        for thing in ("x['a](7)']", "x['[a](b)']", "x['a](1)']"):
            with self.subTest(thing):
                report.findings[0] = replace(report.findings[0], thing=thing)
                log = json.loads(sarif(report))
                self.assertEqual(faults(log), [])
                self.assertEqual(log["runs"][0]["results"][0]["message"]["text"].count("](1)"), 1)

    def test_a_report_whose_folder_is_gone_is_well_formed(self) -> None:
        report = stored()
        report.folder = ""
        log = json.loads(sarif(report))
        self.assertEqual(faults(log), [])
        self.assertEqual(log["runs"][0]["originalUriBaseIds"], {"SRCROOT": {}})
        with mock.patch.dict(os.environ):
            os.environ.pop("GITHUB_WORKSPACE", None)
            self.assertIn("::error file=shop.py,line=10,", github(report))
        self.assertNotIn("file://shop.py", text(report, style=TerminalStyle(True)))

    def test_github_has_a_line_for_each_and_no_bare_newline(self) -> None:
        with mock.patch.dict(os.environ, {"GITHUB_WORKSPACE": "/work/of/shop"}):
            written = github(stored())
        self.assert_stored("kept.github", written)
        lines = written.splitlines()
        self.assertEqual(len(lines), len(stored().findings) + 1)
        for line in lines:
            self.assertRegex(line, r"\A::(error|warning) (file=[^:,]+,line=\d+,)?title=[^:,]+::.")

    def test_the_page_gets_each_finding_with_its_source(self) -> None:
        self.assert_stored("kept.races", race_rows(stored()))

    def test_what_is_no_report_is_told(self) -> None:
        whole = json.loads(json_text(stored()))
        spoilt = ["", "[]", "{}", "7", json.dumps({**whole, "version": 2}), json.dumps({**whole, "verdict": "MAYBE"})]
        spoilt += [json.dumps({key: value for key, value in whole.items() if key != left}) for left in whole]
        spoilt += [json.dumps({**whole, "findings": [{}]}), "[" * 100_000, '{"version":' * 100_000]
        for one in spoilt:
            with self.subTest(one[:60]), self.assertRaises(NoReport):
                report_of_json(one)

    def test_no_value_of_another_type_gets_as_far_as_a_story(self) -> None:
        whole, refused = json.loads(json_text(stored())), 0
        for place in places_of(whole):
            for value in (7, 1.5, "x", None, True, [], {}, [7], [[]]):
                try:
                    report = report_of_json(json.dumps(with_value(whole, place, value)))
                except NoReport:
                    refused += 1
                    continue
                for finding in report.all_findings:
                    explained(finding, report)
                    benign_line(finding)
        self.assertGreater(refused, 1000)

    def test_links_lead_to_both_touches(self) -> None:
        first, second = stored().findings[:2]
        self.assertEqual(link(first, "/a b.html"), "file:///a%20b.html#event=3&other=9")
        self.assertEqual(link(second, "/x.html"), "file:///x.html#part=3&event=40")


def places_of(told: Any, before: tuple[Any, ...] = ()) -> Iterator[tuple[Any, ...]]:
    """Each place within a value of JSON."""
    if before:
        yield before
    for key in told if isinstance(told, dict) else range(len(told)) if isinstance(told, list) else ():
        yield from places_of(told[key], (*before, key))


def with_value(told: Any, place: tuple[Any, ...], value: object) -> Any:
    """The same with another value at a place."""
    key, *rest = place
    changed = told.copy()
    changed[key] = with_value(told[key], tuple(rest), value) if rest else value
    return changed


HOSTILE = ("new\nline.py", "rtl\u202egpj.py", "esc\033[31m.py", "bell\a.py", "caf\udce9.py", "a b.py", "per%cent,colon:.py", "quo\"te'.py")
"""Names of files that end a line, turn letters, steer a terminal, are no UTF-8, or have what a format means otherwise."""


class Names(unittest.TestCase):
    """No name of a file breaks a format."""

    def report(self, file: str) -> Report:
        sides = tuple(FoundSide("write", file, line, "sell", task, line, is_write=True, begin=line, text=("x = 1",))
                      for line, task in ((4, "sell_1"), (5, "sell_2")))
        why = f"ordered in this run only by lock ({file}:9)"
        finding = Finding("race", "stock", sides, why, made=f"a dict made at {file}:2")
        return Report(
            Verdict.RACES, f"1 race in this run; not looked into: exec at {file}:3", [finding], unseen=[Unseen(Cause.MODULE, f"{file} was not watched")],
            hints=[f"the socket at {file}:7 gives no order"], folder="/work", picture=f"/work/{file}.html",
        )

    def test_the_list_has_its_lines_and_no_controls(self) -> None:
        lines = len(text(self.report("shop.py")).splitlines())
        for file in HOSTILE:
            with self.subTest(file):
                report = self.report(file)
                for told in (text(report), explained(report.findings[0], report)):
                    self.assertEqual(re.findall(r"[^\n\t -~]", told), [])
                    self.assertIn(f" at {readable(file)}:4 in sell", told)
                self.assertEqual(len(text(report).splitlines()), lines)
                coloured = text(report, style=TerminalStyle(True))
                self.assertEqual(re.sub(r"\033\[[0-9;]*m|\033\]8;;[^\033]*\033\\", "", coloured), text(report))

    def test_machines_get_the_name_as_it_is(self) -> None:
        for file in HOSTILE:
            with self.subTest(file):
                report = self.report(file)
                written = {name: write(report).encode("utf-8", "backslashreplace").decode() for name, write in FORMATS.items()}
                self.assertEqual(report_of_json(written["json"]).findings, report.findings)
                log = json.loads(written["sarif"])
                self.assertEqual(faults(log), [])
                uri = log["runs"][0]["results"][0]["locations"][0]["physicalLocation"]["artifactLocation"]["uri"]
                self.assertEqual(os.fsdecode(unquote_to_bytes(uri)), file)
                self.assertEqual(len(written["github"].split("\n")), 3)
                self.assertRegex(written["github"], r"\A::error file=[^:,]+,line=4,title=[^:,]+::race on stock")
                self.assertNotRegex(written["github"], r"[\0-\x08\x0b-\x1f\x7f-\x9f]")
                self.assertIn(f"::incomplete: {readable(file).replace('%', '%25')} was not watched\n", written["github"])

    def test_a_line_by_which_it_is_meant_fits(self) -> None:
        for file in HOSTILE:
            with self.subTest(file), tempfile.TemporaryDirectory() as folder:
                finding = self.report(file).findings[0]
                meant = Path(folder, "meant")
                meant.write_text(f"{benign_line(finding)}\n", encoding="utf-8")
                (pattern,) = read_patterns(str(meant))
                self.assertTrue(pattern.fits(finding))

    def test_a_program_whose_name_is_no_text(self) -> None:
        with tempfile.TemporaryDirectory() as folder:
            try:
                Path(os.fsdecode(os.path.join(os.fsencode(folder), b"caf\xe9.py"))).write_text(SELLING)
            except OSError as fault:
                self.skipTest(str(fault))
            words = [sys.executable, "-m", "itc_trace", "run", "--json", "-", "--sarif", "r.sarif", "--write-baseline", "known", b"caf\xe9.py"]
            environment = {**os.environ, "PYTHONPATH": str(PACKAGE)}
            ran = subprocess.run(words, capture_output=True, cwd=folder, env=environment, timeout=600, check=False)
            self.assertEqual(ran.returncode, 66, ran.stderr)
            self.assertIn(b" at caf\\udce9.py:4 in sell", ran.stderr)
            self.assertEqual(report_of_json(ran.stdout.decode()).findings[0].sides[0].file, "caf\udce9.py")
            self.assertEqual(faults(json.loads(Path(folder, "r.sarif").read_text())), [])
            words[4:-1] = ["--baseline", "known"]
            again = subprocess.run(words, capture_output=True, cwd=folder, env=environment, timeout=600, check=False)
            self.assertEqual(again.returncode, 0, again.stderr)


class Commands(unittest.TestCase):
    """What the commands write, end to end."""

    def setUp(self) -> None:
        self.folder = Path(self.enterContext(tempfile.TemporaryDirectory()))
        (self.folder / "shop.py").write_text(SELLING)

    def run_here(self, *words: str, stdout: Any = subprocess.PIPE) -> "subprocess.CompletedProcess[str]":
        environment = {**os.environ, "PYTHONPATH": str(PACKAGE)}
        command = [sys.executable, "-m", "itc_trace", *words]
        return subprocess.run(
            command, stdout=stdout, stderr=subprocess.PIPE, text=True, env=environment, cwd=self.folder, timeout=600, check=False,
        )

    def test_each_command_writes_each_format(self) -> None:
        (self.folder / "shop.toml").write_text(SYSTEM)
        identities = set()
        for words in (["run", "--export", "g", "shop.py"], ["races", "g"], ["system", "shop.toml"], ["run", "--runs", "2", "shop.py"]):
            with self.subTest(words[0]):
                ran = self.run_here(words[0], "--json", "r.json", "--sarif", "r.sarif", "--github", *words[1:])
                self.assertEqual(ran.returncode, 66, ran.stderr)
                report = report_of_json((self.folder / "r.json").read_text())
                self.assertEqual((report.verdict, [one.thing for one in report.findings]), (Verdict.RACES, ["stock['left']"]))
                self.assertTrue(all(side.source == 'stock["left"] -= 1' for side in report.findings[0].sides), report)
                identity = report.findings[0].identity
                identities.add(identity)
                told = json.loads((self.folder / "r.sarif").read_text())
                self.assertEqual(faults(told), [])
                self.assertEqual([one["partialFingerprints"]["itcTrace/v1"] for one in told["runs"][0]["results"]], [identity])
                self.assertEqual(re.findall(r"(?m)^::error file=shop.py,line=4,title=itc-trace (\w+)::", ran.stdout), [identity])
                self.assertIn(f"id {identity}\n", ran.stderr)
        self.assertEqual(len(identities), 1, identities)
        self.assertEqual(sorted(self.folder.glob("*.new")), [])

    def test_standard_output_has_the_format_alone(self) -> None:
        self.run_here("run", "--export", "g", "shop.py")
        for words in (["run", "--json", "-", "shop.py"], ["races", "--json", "-", "g"], ["run", "--json=-", "shop.py"]):
            with self.subTest(words):
                ran = self.run_here(*words)
                self.assertEqual(report_of_json(ran.stdout).verdict, Verdict.RACES)
                self.assertIn("itc_trace: race on stock['left']", ran.stderr)

    def test_a_closed_pipe_is_no_fault(self) -> None:
        self.run_here("run", "--export", "g", "shop.py")
        for words in (["run", "--sarif", "-", "shop.py"], ["races", "--json", "-", "g"]):
            reading, writing = os.pipe()
            os.close(reading)
            with self.subTest(words):
                ran = self.run_here(*words, stdout=writing)
                os.close(writing)
                self.assertEqual(ran.returncode, 66, ran.stderr)
                self.assertNotIn("Traceback", ran.stderr)

    def test_a_report_that_cannot_be_written_is_a_fault(self) -> None:
        with open("/dev/full", "w", encoding="utf-8") as full:
            ran = self.run_here("run", "--json", "-", "shop.py", stdout=full)
        self.assertEqual(ran.returncode, 3, ran.stderr)
        self.assertIn("itc_trace: the output cannot be written: No space left on device\n", ran.stderr)

    @unittest.skipUnless(os.path.exists("/dev/full"), "no disk that is full")
    def test_a_disk_that_is_full_leaves_what_was_there(self) -> None:
        """Each new file is one that takes no byte."""
        files = {option: self.folder / option.strip("-") for option in ("--json", "--sarif", "--write-baseline", "--picture")}
        for file in files.values():
            file.write_text("as before")
            Path(f"{file}.new").symlink_to("/dev/full")
        ran = self.run_here("run", *(word for option, file in files.items() for word in (option, file.name)), "shop.py")
        self.assertEqual(ran.returncode, 3, ran.stderr)
        for file in files.values():
            self.assertEqual(file.read_text(), "as before")
            if file.name != "picture":
                self.assertIn(f"itc_trace: {file.name} cannot be written: No space left on device\n", ran.stderr)
        self.assertRegex(ran.stderr, "itc_trace: no picture: .*No space left on device")
        self.assertNotIn("Traceback", ran.stderr)
        self.assertEqual(list(self.folder.glob("*.new")), [])

    def test_what_the_formats_would_overwrite_is_told_first(self) -> None:
        for words, said in (
            (["--json", "shop.py"], "--json shop.py would overwrite the program: name another file"),
            (["--json", "x", "--sarif", "x"], "--json and --sarif both name x: name two files"),
            (["--json", "-", "--sarif", "-"], "--json and --sarif both write to standard output: name a file for one of them"),
            (["--json", "-", "--github"], "--json and --github both write to standard output: name a file for one of them"),
            (["--sarif", "no/x"], "no/x cannot be written: No such file or directory"),
        ):
            with self.subTest(words):
                ran = self.run_here("run", *words, "shop.py")
                self.assertEqual((ran.returncode, ran.stderr), (2, f"itc_trace: {said}\n"))
        self.assertEqual((self.folder / "shop.py").read_text(), SELLING)

    def test_no_name_steers_the_terminal_of_who_is_told_of_it(self) -> None:
        name = "e\033[31m.py"
        (self.folder / name).write_text(f"exec('1')\n{SELLING}")
        (self.folder / "set.toml").write_text('[tool.itc_trace]\n"be\\u001b[31mn" = 1\n')
        for words, status in (
            (["run", "--runs", "2", "--no-shake", name], 66), (["run", "--export", "g", "--write-baseline", "b\033[1m", name], 66),
            (["explain", "0000", "g"], 2), (["races", "--json", "no\033[1m/x", "g"], 2), (["races", "--benign", "no\033[1m", "g"], 2),
            (["races", "no\033[1m"], 2), (["ra\033[1mces"], 2), (["races", "g", "--al\033[1ml"], 2), (["races", "g"], 2),
        ):
            if words == ["races", "g"]:
                (self.folder / "set.toml").rename(self.folder / "pyproject.toml")
            with self.subTest(words):
                ran = self.run_here(*words)
                self.assertEqual(ran.returncode, status, ran.stderr)
                self.assertNotIn("\033", ran.stdout + ran.stderr)
                self.assertIn("1 race" if status == 66 else "itc_trace: ", ran.stderr)

    def test_no_race_is_told_in_each_format_too(self) -> None:
        (self.folder / "shop.py").write_text("print('sold')\n")
        ran = self.run_here("run", "--quiet", "--json", "r.json", "--sarif", "r.sarif", "--github", "shop.py")
        self.assertEqual((ran.returncode, ran.stdout, ran.stderr), (0, "sold\n", ""))
        self.assertEqual(report_of_json((self.folder / "r.json").read_text()).verdict, Verdict.NO_RACE)
        told = json.loads((self.folder / "r.sarif").read_text())["runs"][0]
        self.assertEqual((told["results"], told["invocations"]), ([], [{"executionSuccessful": True}]))

    def test_a_program_that_removes_its_folder_is_told_of(self) -> None:
        kept = Path(self.enterContext(tempfile.TemporaryDirectory()))
        (self.folder / "shop.py").write_text(SELLING + "import os, shutil\nshutil.rmtree(os.getcwd())\n")
        self.addCleanup(self.folder.mkdir)
        ran = self.run_here("run", "--json", f"{kept}/r.json", "--sarif", f"{kept}/r.sarif", "--github", "shop.py")
        self.assertEqual(ran.returncode, 66, ran.stderr)
        self.assertIn("itc_trace: race on stock['left']", ran.stderr)
        self.assertRegex(ran.stdout, r"\A::error file=shop.py,line=4,")
        self.assertEqual(report_of_json((kept / "r.json").read_text()).folder, "")
        self.assertEqual(faults(json.loads((kept / "r.sarif").read_text())), [])

    def test_a_run_that_was_not_seen_whole_is_no_success_in_any_format(self) -> None:
        (self.folder / "shop.py").write_text("import os, signal\nos.kill(os.getpid(), signal.SIGKILL)\n")
        ran = self.run_here("run", "--json", "r.json", "--sarif", "r.sarif", "--github", "shop.py")
        self.assertEqual(ran.returncode, 67, ran.stderr)
        self.assertEqual(report_of_json((self.folder / "r.json").read_text()).verdict, Verdict.INCOMPLETE)
        (invocation,) = json.loads((self.folder / "r.sarif").read_text())["runs"][0]["invocations"]
        self.assertFalse(invocation["executionSuccessful"])
        self.assertRegex(ran.stdout, r"\A::error title=itc-trace::incomplete: .*SIGKILL")


class Shares(unittest.TestCase):
    """How much of a report is shown."""

    def test_every_format_is_an_option(self) -> None:
        ran = subprocess.run(
            [sys.executable, "-m", "itc_trace", "run", "--help"], capture_output=True, text=True, check=True,
            env={**os.environ, "PYTHONPATH": str(PACKAGE)},
        )
        for name in FORMATS:
            self.assertIn(f"--{name}", ran.stdout)

    def test_at_most_so_many_entries_are_shown_and_all_are_counted(self) -> None:
        report = stored()
        told = text(report, Shown(most=1))
        self.assertIn("itc_trace: and 3 more, which --max 1 leaves out\n", told)
        self.assertEqual(told.count("race on "), 1)
        self.assertTrue(told.endswith(report.summary))
        self.assertNotIn("leaves out", text(report, Shown(most=4)))


if __name__ == "__main__":
    unittest.main()
