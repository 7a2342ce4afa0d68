"""Runs the tests of `clients/java/agent/tests` by JUnit 5 as they are, watched by the agent, and looks which tests each
race names, and which fail.

A line that races says so in a comment of the source, with the names of its tests, as in `race: ShopTest.sells()`.
Exactly these lines have to be listed, each in these tests alone, and exactly these tests have to fail. What is only
possible fails none, nor does a race of both of two tests that run at the same time. If a file silences races, none
fails.

Usage: clients/watched_tests.py FOLDER, with the agent in FOLDER. The last line is 'watched_tests: N passed'.
"""

from __future__ import annotations

import json
import os
import re
import subprocess
import sys
import tempfile
from pathlib import Path
from typing import Any, NamedTuple
from xml.etree import ElementTree

CLIENTS = Path(__file__).resolve().parent
SOURCES = CLIENTS / "java/agent/tests"
JARS = Path(os.environ.get("ITC_JUNIT", "/usr/share/java"))
NAMES = (
    "junit-jupiter-api", "junit-jupiter-params", "junit-jupiter-engine", "junit-platform-commons",
    "junit-platform-engine", "junit-platform-launcher", "junit-platform-console", "junit-platform-reporting",
    "opentest4j", "opentest4j-reporting-events", "opentest4j-reporting-schema", "apiguardian-api", "picocli",
    "univocity-parsers",
)
PATH = ":".join(str(JARS / f"{name}.jar") for name in NAMES)
AT_ONCE = (
    "--config=junit.jupiter.execution.parallel.enabled=true",
    "--config=junit.jupiter.execution.parallel.config.strategy=fixed",
    "--config=junit.jupiter.execution.parallel.config.fixed.parallelism=4",
)
OWN = "java.lang.IllegalStateException"
"""What a test throws itself that has a race, too."""
MOST_SECONDS = 300
RACES, FAILED = 66, 1
BRIEF = ("-XX:TieredStopAtLevel=1", "-XX:+UseSerialGC")
Lines = set[tuple[int, tuple[str, ...]]]
"""The line of a race, and its tests."""


class Tests(NamedTuple):
    """A class of tests, and how it is run."""

    name: str
    options: tuple[str, ...] = ()

    def due(self, kind: str) -> Lines:
        """The lines that say so of this kind of race."""
        lines = (SOURCES / f"{self.name}.java").read_text().splitlines()
        marked = ((number, re.search(rf"// {kind}: (.*)", line)) for number, line in enumerate(lines, 1))
        return {(number, tuple(sorted(found[1].split()))) for number, found in marked if found}

    @property
    def failing(self) -> set[str]:
        return {test for _, tests in self.due("race") for test in tests}


class Ran(NamedTuple):
    """What came of a run."""

    status: int
    errors: str
    findings: list[dict[str, Any]]
    cases: list[ElementTree.Element]
    """What the runner itself tells of each test."""

    def lines(self, kind: str) -> Lines:
        return {
            (side["line"], tuple(sorted(one["tests"])))
            for one in self.findings if one["kind"] == kind for side in one["sides"]
        }

    def failed(self) -> dict[str, tuple[str, str]]:
        """By the test's name, the exception by which it failed, and all that is told of it."""
        failures = ((_named(one), one.find("failure"), one.find("error")) for one in self.cases)
        found = ((name, failure if failure is not None else error) for name, failure, error in failures)
        return {name: (one.get("type", ""), "".join(one.itertext())) for name, one in found if one is not None}


def _named(case: ElementTree.Element) -> str:
    """The name of a test as a race has it."""
    name = re.sub(r"\[(\d+)\]$", r".#\1", case.get("name", ""))
    return f"{case.get('classname', '').replace('$', '.')}.{name}"


def ran(agent: Path, tests: Tests, *patterns: str) -> Ran:
    """Runs the tests, with a file of these patterns if there are some."""
    environment = {**os.environ, "PYTHONPATH": str(CLIENTS / "python"), "ITC_TRACE_AGENT": str(agent)}
    with tempfile.TemporaryDirectory() as name:
        folder, source = Path(name), SOURCES / f"{tests.name}.java"
        subprocess.run(["javac", "-J-XX:TieredStopAtLevel=1", "-d", name, "-cp", PATH, str(source)], check=True)
        report, benign = folder / "report.json", folder / "benign"
        benign.write_text("\n".join(patterns))
        launcher = ["org.junit.platform.console.ConsoleLauncher", "--disable-banner", f"--reports-dir={name}"]
        done = subprocess.run(
            [sys.executable, "-m", "itc_trace", "java", "--all", "--exclude", "org.junit", "--exclude", "picocli",
             "--json", str(report), *(("--benign", str(benign)) if patterns else ()), "--", *BRIEF,
             "-cp", f"{name}:{PATH}", *launcher, *tests.options, "--select-class", tests.name],
            env=environment, cwd=SOURCES, capture_output=True, text=True, timeout=MOST_SECONDS, check=False,
        )
        findings = json.loads(report.read_text())["findings"] if report.exists() else []
        written = folder / "TEST-junit-jupiter.xml"
        cases = ElementTree.parse(written).findall("testcase") if written.exists() else []
    return Ran(done.returncode, done.stdout + done.stderr, findings, cases)


def fault_of(agent: Path, tests: Tests) -> str | None:
    """What is wrong with what is told of a run of these tests."""
    run = ran(agent, tests)
    raced, possible = tests.due("race") | tests.due("race of both"), tests.due("possible")
    failed = run.failed()
    due = [f"    in {'' if len(names) == 1 else '2 tests, first in '}{names[0]}\n" for _, names in tests.due("race")]
    due += [f"itc_trace: 1 race: {test}\n" for test in tests.failing if tests.due("race of both") == set()]
    if run.status != RACES or run.lines("race") != raced or run.lines("possible race") != possible:
        return f"status {run.status}, {sorted(run.lines('race'))} in place of {sorted(raced)}\n{run.errors}"
    if set(failed) != tests.failing or not all(line in run.errors for line in due):
        return f"{sorted(failed)} failed in place of {sorted(tests.failing)}\n{run.errors}"
    for line, names in tests.due("race"):
        for kind, told in (failed[name] for name in names):
            is_own = "thrown by the test" in told
            wanted = f"({tests.name}.java:{line})"
            if (kind == OWN) != is_own or kind not in (OWN, "java.lang.AssertionError") or told.count(wanted) < 2:
                return f"{names} failed by {kind}, without {wanted} twice: {told}"
    return None


def fault_of_silenced(agent: Path, tests: Tests) -> str | None:
    """What is wrong with a run whose races a file silences."""
    run = ran(agent, tests, "*")
    failed = {name: kind for name, (kind, told) in run.failed().items() if "race on" not in told}
    if run.status != FAILED or run.findings or set(failed.values()) != {OWN} or len(failed) != len(run.failed()):
        return f"status {run.status}, {len(run.findings)} races, {sorted(run.failed())} failed\n{run.errors}"
    return None


def main() -> int:
    agent = Path(sys.argv[1]).resolve() / "itc-trace-agent.jar"
    shop, at_once = Tests("ShopTest"), Tests("AtOnceTest", AT_ONCE)
    found = (fault_of(agent, shop), fault_of(agent, at_once), fault_of_silenced(agent, shop))
    faults = [fault for fault in found if fault is not None]
    for fault in faults:
        print(f"watched_tests: wrong: {fault}")
    failed = f", {len(faults)} failed" if faults else ""
    print(f"watched_tests: {len(found) - len(faults)} passed{failed}")
    return 1 if faults else 0


if __name__ == "__main__":
    sys.exit(main())
