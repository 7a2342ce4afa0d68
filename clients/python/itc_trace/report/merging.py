"""Puts together what was found in several runs of one program."""

from __future__ import annotations

from collections.abc import Collection, Iterable, Sequence
from dataclasses import dataclass, field, replace

from ..analyse.benign import Looking
from ..analyse.deadlocks import Deadlock
from ..analyse.races import Race, Races, told_deadlocks, told_hidden, told_races
from ..model.finding import Finding, Seen, runs_in_words
from ..model.sources import Sources
from ..model.verdict import Left, PassedOver, Unseen, Verdict, listed, verdict_of
from .hints import hints
from .report import Report

Key = object


@dataclass
class Often:
    """A race that was found in some of the runs: one example, and the number and the seed of the run that it is of."""

    example: Race | Deadlock
    sources: Sources
    first_run: int
    seed: int | None
    runs: int = 0

    def finding(self, of: int) -> Finding:
        seen = Seen(self.runs, of, self.first_run, self.seed) if self.runs else None
        return replace(self.example.finding(self.sources), seen=seen)


@dataclass
class Merged:
    """The races of all runs together, those that are possible only, and what was not seen."""

    runs: int = 0
    status: int = 0
    """The first status of the program that was not 0."""
    unseen: list[Unseen] = field(default_factory=list)
    passed_over: list[PassedOver] = field(default_factory=list)
    left: list[Left] = field(default_factory=list)
    tries: int = 0
    """How many runs were to have what was possible in one before."""
    _races: dict[Key, Often] = field(default_factory=dict)
    _hidden: dict[Key, Often] = field(default_factory=dict)
    _possible: dict[Key, Often] = field(default_factory=dict)
    _deadlocks: dict[Key, Often] = field(default_factory=dict)
    _possible_deadlocks: dict[Key, Often] = field(default_factory=dict)
    _meant: dict[Key, Often] = field(default_factory=dict)
    _known: dict[Key, Often] = field(default_factory=dict)

    def add(self, races: Races, status: int, seed: int | None, is_directed: bool = False) -> None:
        """Adds what a run found. One that is directed was to have the races that were possible in runs before."""
        self.runs += 1
        self.tries += is_directed
        for met in races.races if is_directed else ():
            was_possible = met.key in self._possible or met.key in self._hidden
            met.is_confirmed = was_possible and met.key not in self._races
        self.status = self.status or status
        self.passed_over += races.passed_over
        self.left += races.left
        self.unseen += [Unseen(one.cause, f"run {self.runs}: {one.text}") for one in races.unseen]
        lists: tuple[tuple[Sequence[Race | Deadlock], dict[Key, Often]], ...] = (
            (races.races, self._races), (races.possible, self._possible), (races.deadlocks, self._deadlocks),
            (races.possible_deadlocks, self._possible_deadlocks), (races.meant, self._meant),
            (races.known, self._known), (races.hidden, self._hidden),
        )
        for found, known in lists:
            for key, race in {race.key: race for race in found}.items():
                known.setdefault(key, Often(race, races.sources, self.runs, seed)).runs += 1

    @property
    def _only_possible(self) -> dict[Key, Often]:
        """What was possible in some run, and a race in none."""
        return {key: often for key, often in self._possible.items() if key not in self._races}

    @property
    def _only_hidden(self) -> dict[Key, Often]:
        """What was neither a race nor possible in any run."""
        return {
            key: often for key, often in self._hidden.items() if key not in self._races and key not in self._possible
        }

    @property
    def tried_races(self) -> list[Race]:
        """The races that a further run may have, those that are told first."""
        examples = [often.example for often in (*self._only_possible.values(), *self._only_hidden.values())]
        return [one for one in examples if isinstance(one, Race) and one.may_meet]

    def add_further(self, races: Iterable[Race]) -> None:
        """Adds what a further run has had beside what it was to have."""
        tables = (self._races, self._possible, self._hidden, self._meant, self._known)
        for race in races:
            if not any(race.key in table for table in tables):
                self._races[race.key] = Often(race.of_further_run(), Sources(), 0, None)

    def confirm_races(self, keys: Collection[object]) -> None:
        """A further run has had the races of these keys."""
        for race in self.tried_races:
            if race.key in keys:
                race.confirm()
                self._races[race.key] = self._possible.get(race.key) or self._hidden[race.key]

    @property
    def _only_possible_deadlocks(self) -> dict[Key, Often]:
        """The same of deadlocks."""
        return {key: often for key, often in self._possible_deadlocks.items() if key not in self._deadlocks}

    @property
    def tried(self) -> list[Deadlock]:
        """The deadlocks that a further run may bring about."""
        examples = (often.example for often in self._only_possible_deadlocks.values())
        return [one for one in examples if isinstance(one, Deadlock) and one.is_of_locks]

    def confirm(self, keys: Collection[object]) -> None:
        """A further run has met the possible deadlocks of these keys."""
        for deadlock in self.tried:
            if deadlock.key in keys:
                deadlock.confirm()
                self._deadlocks[deadlock.key] = self._possible_deadlocks.pop(deadlock.key)

    def verdict(self, fail_on_possible: bool = False) -> Verdict:
        possible = len(self._only_possible) + len(self._only_possible_deadlocks) if fail_on_possible else 0
        return verdict_of(len(self._races) + len(self._deadlocks) + possible, self.unseen)

    @property
    def _found(self) -> list[Often]:
        """Those that count, and behind them those that are possible only."""
        found = (self._races, self._deadlocks, self._only_possible, self._only_possible_deadlocks)
        return [often for one in found for often in one.values()]

    def _examples(self) -> Races:
        """The example of each race and each deadlock."""
        examples = [often.example for often in self._found]
        return Races(
            [one for one in examples if isinstance(one, Race)],
            deadlocks=[one for one in examples if isinstance(one, Deadlock)], left=self.left,
        )

    def report(self, looking: Looking, fail_on_possible: bool = False) -> Report:
        def made(found: Iterable[Often]) -> list[Finding]:
            return [often.finding(self.runs) for often in found]

        return Report(
            self.verdict(fail_on_possible), self._summary(),
            made(self._found), made(self._meant.values()),
            made(self._known.values()), looking.gone(), self.unseen, list(dict.fromkeys(self.passed_over)),
            [*hints(self._examples()), *looking.unfitting()], {"runs": self.runs},
        )

    def _summary(self) -> str:
        found = told_races(len(self._races), bool(self._known))
        possible = f"; {len(self._only_possible)} possible" if self._only_possible else ""
        seen = "what was seen of " if self.unseen else ""
        deadlocks = told_deadlocks(len(self._deadlocks), len(self._only_possible_deadlocks))
        silenced = f"; {len(self._meant)} silenced" if self._meant else ""
        known = f"; {len(self._known)} in the baseline" if self._known else ""
        examples = [often.example for often in self._only_hidden.values()]
        hidden = told_hidden([one for one in examples if isinstance(one, Race)], self.tries)
        told = f"{possible}{deadlocks}{silenced}{known}{hidden}{listed(self.passed_over)}"
        return f"{found} in {seen}{runs_in_words(self.runs)}{told}"
