"""Puts together what the tests of pytest met, which may have run in several processes."""

from __future__ import annotations

from collections import Counter
from collections.abc import Iterable, Iterator
from dataclasses import dataclass, field, replace

from ..analyse.races import told_deadlocks, told_races
from ..model.finding import DEADLOCK, POSSIBLE_DEADLOCK, POSSIBLE_RACE, RACE, Finding, Known
from ..model.readable import readable
from ..model.verdict import Cause, PassedOver, Unseen, Verdict, listed, verdict_of
from .report import Report, told_kinds

Key = tuple[str, str]


@dataclass
class OfTests:
    """The reports of all tests that were traced."""

    baseline: list[Known] = field(default_factory=list)
    reports: dict[str, list[Report]] = field(default_factory=dict)
    """By the name of the test, which may run in each of several processes."""

    def add(self, test: str, report: Report) -> None:
        self.reports.setdefault(test, []).append(report)

    @property
    def _all(self) -> list[tuple[str, Report]]:
        return [(test, report) for test, reports in self.reports.items() for report in reports]

    @property
    def met(self) -> set[Known]:
        """All that was found and is not meant, whether it was known or not."""
        return {one.known_as for _, report in self._all for one in (*report.findings, *report.known)}

    def report(self, fail_on_possible: bool) -> Report:
        """What all tests met. What several of them met stands there once, with their names."""
        found = self._merged("findings")
        races = [one for one in found if not one.is_possible]
        raced = {(one.identity, one.thing) for one in races}
        possible = [one for one in found if one.is_possible and (one.identity, one.thing) not in raced]
        unseen = [
            Unseen(one.cause, f"{test}: {one.text}") for test, report in self._all for one in report.unseen
        ]
        passed_over = list(dict.fromkeys(one for _, report in self._all for one in report.passed_over))
        silenced, known = self._merged("silenced"), self._merged("known")
        return Report(
            verdict_of(len(races) + (len(possible) if fail_on_possible else 0), unseen),
            self._summary([*races, *possible], len(silenced), len(known), bool(unseen), passed_over),
            [*races, *possible], silenced, known, [one for one in self.baseline if one not in self.met], unseen,
            passed_over, list(dict.fromkeys(hint for _, report in self._all for hint in report.hints)),
            {"tests": len(self.reports)},
        )

    def _merged(self, name: str) -> list[Finding]:
        """The findings of one list of each report, each with its tests."""
        merged: dict[Key, Finding] = {}
        tests: dict[Key, list[str]] = {}
        for test, report in self._all:
            for finding in getattr(report, name):
                key = finding.kind, finding.identity
                merged.setdefault(key, finding)
                if test not in tests.setdefault(key, []):
                    tests[key].append(test)
        return [replace(finding, tests=tuple(tests[key])) for key, finding in merged.items()]

    def _summary(
        self, findings: list[Finding], silenced: int, known: int, is_cut: bool, passed_over: list[PassedOver],
    ) -> str:
        kinds = Counter(finding.kind for finding in findings)
        found = told_races(kinds[RACE], known > 0)
        tests = "1 test" if len(self.reports) == 1 else f"{len(self.reports)} tests"
        seen = "what was seen of " if is_cut else ""
        possible = f"; {kinds[POSSIBLE_RACE]} possible" if kinds[POSSIBLE_RACE] else ""
        deadlocks = told_deadlocks(kinds[DEADLOCK], kinds[POSSIBLE_DEADLOCK])
        further = ((silenced, "silenced"), (known, "in the baseline"))
        told = "".join(f"; {count} {what}" for count, what in further if count)
        return f"{found} in {seen}{tests}{possible}{deadlocks}{told}{listed(passed_over)}"

    def by_test(self) -> Iterator[str]:
        """How many races each test met, a line for each that met some."""
        for test, reports in self.reports.items():
            places = {(one.told_kind, one.identity, _places(one)): one for report in reports for one in report.findings}
            kinds = Counter(finding.told_kind for finding in places.values())
            if kinds:
                yield f"{told_kinds(kinds)}: {test}"


def short(findings: Iterable[Finding]) -> Iterator[str]:
    """A line for each finding."""
    for finding in findings:
        places = " and ".join(_places(finding))
        tests = "1 test" if len(finding.tests) == 1 else f"{len(finding.tests)} tests"
        yield readable(f"{finding.told_kind} on {finding.thing} at {places}, in {tests}; id {finding.identity}")


def _places(finding: Finding) -> tuple[str, ...]:
    return tuple(dict.fromkeys(side.place for side in finding.sides))


def not_traced(why: str, cause: Cause = Cause.TRACER) -> Report:
    """Of a test that was not traced, or not to its end."""
    return Report(Verdict.INCOMPLETE, why, unseen=[Unseen(cause, why)])
