"""What was found, as one value that is made once. Each format is written of this value, and knows nothing else."""

from __future__ import annotations

from collections import Counter
from collections.abc import Iterable, Iterator
from dataclasses import dataclass, field

from ..analyse.benign import Looking
from ..analyse.deadlocks import Deadlock
from ..analyse.races import Race, Races
from ..model.file_names import working_folder
from ..model.finding import Finding, Known
from ..model.verdict import PassedOver, Unseen, Verdict
from .hints import hints


@dataclass
class Report:
    """All that was found in a run, or in several."""

    verdict: Verdict
    summary: str
    """What was found, how much, and of how much: the last line for a person."""
    findings: list[Finding] = field(default_factory=list)
    """Those that count, and behind them those that are possible only."""
    silenced: list[Finding] = field(default_factory=list)
    """Those that are meant."""
    known: list[Finding] = field(default_factory=list)
    """Those that are in the baseline."""
    gone: list[Known] = field(default_factory=list)
    """Those of the baseline that did not occur."""
    unseen: list[Unseen] = field(default_factory=list)
    passed_over: list[PassedOver] = field(default_factory=list)
    hints: list[str] = field(default_factory=list)
    """What a reader is told, too, a line each."""
    counts: dict[str, int] = field(default_factory=dict)
    """How much was looked at: `places`, `things`, `events` and `runs`."""
    picture: str | None = None
    """The file of the page that shows the trace."""
    folder: str = field(default_factory=working_folder)
    """The files of findings are named from here, if their names are no whole paths. Empty if it is gone."""

    @property
    def all_findings(self) -> list[Finding]:
        """Those that are meant or known, too."""
        return [*self.findings, *self.silenced, *self.known]

    @property
    def ids(self) -> dict[str, Finding]:
        """Each by its identity. Of those that share one it is the first."""
        named: dict[str, Finding] = {}
        for finding in self.all_findings:
            named.setdefault(finding.identity, finding)
        return named


def told_kinds(kinds: Counter[str]) -> str:
    """How many there are of each kind."""
    return ", ".join(f"{count} {kind}{'' if count == 1 else 's'}" for kind, count in kinds.items())


def _by_test(found: Iterable[Finding]) -> Iterator[str]:
    """How many races each test met, a line for each that met some."""
    tests: dict[str, Counter[str]] = {}
    for finding in found:
        for test in finding.tests:
            tests.setdefault(test, Counter())[finding.told_kind] += 1
    return (f"{told_kinds(kinds)}: {test}" for test, kinds in tests.items())


def report_of(
    races: Races, looking: Looking | None = None, fail_on_possible: bool = False, picture: str | None = None,
    beside: Iterable[str] = (),
) -> Report:
    """The report of one run."""
    looking = looking or Looking()

    def made(found: Iterable[Race | Deadlock]) -> list[Finding]:
        return [race.finding(races.sources) for race in found]

    found = made(races.found_ones)
    return Report(
        races.verdict(fail_on_possible), races.summary(), found, made(races.meant),
        made(races.known), looking.gone(), list(races.unseen), list(dict.fromkeys(races.passed_over)),
        [*_by_test(found), *hints(races), *looking.unfitting(), *beside],
        {"places": races.places, "things": races.things, "events": races.events, "runs": 1}, picture,
    )
