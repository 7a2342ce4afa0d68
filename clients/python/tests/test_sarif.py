"""Each kind of finding is SARIF 2.1.0: by what is checked by hand, and by classes that were made of the published schema."""

from __future__ import annotations

import json
import os
import re
import subprocess
import unittest
from dataclasses import replace
from pathlib import Path
from typing import Any
from urllib.parse import unquote, unquote_to_bytes

from itc_trace.model.finding import DEADLOCK, POSSIBLE_DEADLOCK, POSSIBLE_RACE, RACE, Finding, FoundSide
from itc_trace.model.verdict import Cause, Unseen, Verdict
from itc_trace.report.report import Report
from itc_trace.report.sarif import sarif

from .sarif_form import faults
from .support import needs, python_with
from .test_report import HOSTILE, stored

CLASSES = Path(__file__).with_name("sarif_classes.py")
FILES = ("shop.py", "shop/b/Store.java", "../go/store.go", "src/store.rs", "/opt/a b/l\u00e4den 100%.py", "<string>", "", *HOSTILE)


def side(kind: str, file: str, line: int, task: str) -> FoundSide:
    return FoundSide(kind, file, line, "f", task, line, is_write=kind == "write", begin=max(line, 1), text=("x = 1",))


def findings(file: str) -> list[Finding]:
    """One of each kind."""
    pair = (side("read", file, 4, "one"), side("write", file, 5, "two"))
    four = tuple(side(kind, file, line, task) for line, (kind, task) in enumerate(
        (("holds a", "one"), ("wants b['x']", "one"), ("holds b['x']", "two"), ("wants a", "two")), 1
    ))
    race, waiting = Finding(RACE, "x", pair, "nothing orders them"), Finding(DEADLOCK, "a and b['x']", four, "each waits")
    return [
        race, replace(race, thing="confirmed", is_confirmed=True), replace(race, kind=POSSIBLE_RACE, thing="y", is_possible=True, times=0),
        replace(race, thing="unknown line", sides=(replace(pair[0], line=0), replace(pair[1], line=0, text=()))), waiting,
        replace(waiting, kind=POSSIBLE_DEADLOCK, is_possible=True),
    ]


def report(file: str) -> Report:
    one = findings(file)
    return Report(
        Verdict.RACES, "6 races in this run", one, silenced=[replace(one[0], thing="meant")], known=[replace(one[4], thing="known")],
        unseen=[Unseen(Cause.MODULE, f"{file} was not watched")], folder="/work/of shop",
    )


def reports() -> dict[str, Report]:
    return {"stored": stored(), "no race": Report(Verdict.NO_RACE, "no race in this run", folder="/work"), **{repr(file): report(file) for file in FILES}}


class Sarif(unittest.TestCase):
    def logs(self) -> dict[str, Any]:
        """As they are written to a file."""
        return {name: json.loads(sarif(one).encode("utf-8", "backslashreplace")) for name, one in reports().items()}

    def test_each_kind_of_finding_has_the_form(self) -> None:
        for name, log in self.logs().items():
            with self.subTest(name):
                self.assertEqual(faults(log), [])

    @needs("python3-sarif-python-om", "sarif_om")
    def test_the_classes_of_the_published_schema_have_each_property(self) -> None:
        for name, log in self.logs().items():
            with self.subTest(name):
                self.assertEqual(self.faults_by_classes(log), "")
        log = self.logs()["stored"]
        spoilt = (
            (lambda log: log["runs"][0]["results"][0].update(severity="high"), "Result has no severity"),
            (lambda log: log["runs"][0]["results"][0].pop("message"), "missing 1 required positional argument: 'message'"),
            (lambda log: log["runs"][0]["tool"]["driver"]["rules"][0].pop("id"), "missing 1 required positional argument: 'id'"),
            (lambda log: log["runs"][0]["results"][0]["locations"][0].update(place={}), "Location has no place"),
        )
        for spoil, told in spoilt:
            with self.subTest(told):
                other = json.loads(json.dumps(log))
                spoil(other)
                self.assertIn(told, self.faults_by_classes(other))

    def faults_by_classes(self, log: Any) -> str:
        words = [python_with("sarif_om") or "", str(CLASSES)]
        ran = subprocess.run(words, input=json.dumps(log), capture_output=True, text=True, check=False)
        self.assertEqual((ran.returncode, ran.stderr), (0, ""))
        return ran.stdout.strip()

    def test_a_place_leads_to_its_file(self) -> None:
        for file in FILES:
            if file and not file.startswith("<"):
                with self.subTest(file):
                    log = json.loads(sarif(report(file)))
                    artifact = log["runs"][0]["results"][0]["locations"][0]["physicalLocation"]["artifactLocation"]
                    base = log["runs"][0]["originalUriBaseIds"].get(artifact.get("uriBaseId"), {}).get("uri", "")
                    found = os.fsdecode(unquote_to_bytes((base + artifact["uri"]).removeprefix("file://")))
                    self.assertEqual(found, os.path.normpath(os.path.join("/work/of shop", file)))
                    self.assertRegex(artifact["uri"], r"\A[A-Za-z0-9._~/%:-]+\Z")

    def test_kinds_levels_and_suppressions(self) -> None:
        log = json.loads(sarif(report("shop.py")))
        results = log["runs"][0]["results"]
        self.assertEqual(
            [(one["ruleId"], one["level"], one.get("suppressions"), one.get("properties")) for one in results],
            [
                ("race", "error", None, None), ("race", "error", None, {"confirmed": True}), ("possible-race", "warning", None, None),
                ("race", "error", None, None), ("deadlock", "error", None, None), ("possible-deadlock", "warning", None, None),
                ("race", "error", [{"kind": "inSource"}], None), ("deadlock", "error", [{"kind": "external"}], None),
            ],
        )
        self.assertEqual([len(one["relatedLocations"]) for one in results], [1, 1, 1, 1, 3, 3, 1, 3])
        for one in results:
            rule = log["runs"][0]["tool"]["driver"]["rules"][one["ruleIndex"]]
            self.assertEqual((rule["id"], rule["defaultConfiguration"]["level"]), (one["ruleId"], one["level"]))
            self.assertEqual([int(number) for number in re.findall(r"\]\((\d+)\)", one["message"]["text"])], [place["id"] for place in one["relatedLocations"]])
        self.assertEqual(unquote(log["runs"][0]["originalUriBaseIds"]["SRCROOT"]["uri"]), "file:///work/of shop/")


if __name__ == "__main__":
    unittest.main()
