"""Runs the programs of the tests several times, and prints which have another answer than is due, or not always the
same.

Each time is a process of its own, in which all programs of a table run as they do in its test. A name that is no table
is that of a module of tests, as `test_orders`.

Usage: python3 -m tests.again [--times N] [--pure] [NAME..], in the folder of the package

The last line counts. The status is 0 if all answers were as they are due.
"""

from __future__ import annotations

import argparse
import itertools
import json
import os
import subprocess
import sys
import unittest
from collections import Counter
from collections.abc import Callable, Iterator
from functools import partial
from typing import Any, NamedTuple
from unittest import mock

from itc_trace import Races
from itc_trace.watch import passed_over

from . import by_luck, constructs, hidden_races, in_order, pairs, slips, turns
from .due import due_of, faults, told_by
from .forked_runs import run_program
from .support import PACKAGE
from .test_programs import PROGRAMS, programs

Answers = dict[str, str]
WRONG = "wrong"
"""What begins an answer that is not due."""


def of_constructs() -> Iterator[str]:
    told = constructs.told_of(list(constructs.constructs()))
    yield from (*told.wrong, *(f"{name}: told under a lock" for name in told.false), *told.faults)


def of_pairs() -> Iterator[str]:
    told = pairs.told_of(list(pairs.pairs()))
    yield from (f"{name}: missed" for name in told.missed)
    yield from (*(f"{name}: false" for name in told.false), *told.faults)


def of_luck() -> Iterator[str]:
    for table, orders in by_luck.answers().items():
        for order, told in orders.items():
            is_certain = table == "locks" or order != "as hidden"
            yield from (f"{name}: untold, {order}" for name in told.untold if is_certain and table != "meant")
            yield from (f"{name}: further lines, {order}" for name in told.further if table != "meant")
            yield from (f"{name}: a race, {order}" for name in told.races if table == "meant")
            yield from map(": ".join, told.faults.items())


def of_twins() -> Iterator[str]:
    found = in_order.found_in(in_order.twins())
    yield from (*found.false, *(f"{name}: missed" for name in found.missed), *found.wrong)
    yield from map(": ".join, found.faults.items())


def of_slips() -> Iterator[str]:
    answers, failed = slips.answers()
    yield from (f"{row.chapter}: {row.one} | {row.other}: {answer}" for row, answer in answers if answer != row.answer)
    yield from failed


def of_turns() -> Iterator[str]:
    yield from turns.told_of(list(turns.FORMS))


JUDGED: dict[str, tuple[Any, Callable[[], Iterator[str]]]] = {
    "constructs": (constructs, of_constructs), "pairs": (pairs, of_pairs), "by_luck": (by_luck, of_luck),
    "in_order": (in_order, of_twins), "slips": (slips, of_slips), "turns": (turns, of_turns),
}
"""The tables whose programs run in one process, and what of them is not as it is due."""


def in_one_process(name: str) -> Answers:
    module, judge = JUDGED[name]
    told: Answers = {}
    with mock.patch.object(module, "races_of", _keeping(told, pairs.races_of), create=True):
        wrong = dict.fromkeys(judge(), WRONG)
    return {**told, **wrong}


def _keeping(told: Answers, races_of: Callable[..., tuple[set[str], Races]]) -> Callable[..., tuple[set[str], Races]]:
    """Does what `races_of` does, and keeps what is told of each program."""
    numbers = itertools.count(1)

    def keeping(chosen: list[Any], lock: str, *further: Any) -> tuple[set[str], Races]:
        known, number = len(passed_over.found), next(numbers)
        names, races = races_of(chosen, lock, *further)
        stars: dict[int, set[int]] = {}
        for star in (*list(passed_over.found)[known:], *races.passed_over):
            if (place := constructs.place_in(star.place)) is not None:
                stars.setdefault(place[0], set()).add(place[1])
        race, possible = map(constructs.lines_told, (races.races, races.possible))
        kinds = {"race": race, "possible": possible, "star": stars}
        for at, one in enumerate(chosen):
            name = getattr(one, "name", "") or f"{one.group}: {one.touch}"
            answer = {kind: sorted(lines[at]) for kind, lines in kinds.items() if at in lines}
            told[f"run {number}: {name}"] = json.dumps(answer)
        return names, races

    return keeping


def hidden() -> Answers:
    told = {}
    for forms in (hidden_races.HIDDEN, hidden_races.CLEAN):
        for ran in hidden_races.confirmed(hidden_races.programs(forms), 1):
            is_due = ran.is_confirmed == (forms is hidden_races.HIDDEN)
            told[ran.name] = f"{'' if is_due else WRONG + ' '}confirmed {ran.is_confirmed}, status {ran.status}"
    return told


def of_programs() -> Answers:
    told = {}
    for place, path in enumerate([*programs(PROGRAMS), *programs(PROGRAMS / "unchanged")]):
        ran = run_program(path, place)
        wrong = faults(due_of(path), ran.returncode, ran.stderr)
        told[path.stem] = f"{WRONG if wrong else ''} {sorted(map(str, told_by(ran.stderr)))} {wrong or ''}".strip()
    return told


TABLES: dict[str, Callable[[], Answers]] = {
    **{name: partial(in_one_process, name) for name in JUDGED}, "hidden_races": hidden, "programs": of_programs,
}


def of_tests(name: str) -> Answers:
    """A test has an answer if it fails."""
    result = unittest.TestResult()
    unittest.defaultTestLoader.loadTestsFromName(f"tests.{name}").run(result)
    return {f"{test}": f"{WRONG}: {text.splitlines()[-1]}" for test, text in (*result.failures, *result.errors)}


class Once(NamedTuple):
    """A table that has run once. If something is said, it has failed."""

    answers: Answers
    said: str


def once(name: str, form: str) -> Once:
    environment = {**os.environ, "PYTHONPATH": str(PACKAGE), "ITC_TRACE_PURE": form}
    words = [sys.executable, "-m", "tests.again", "--once", name]
    ran = subprocess.run(words, cwd=PACKAGE, env=environment, capture_output=True, text=True, check=False)
    if ran.returncode:
        return Once({}, ran.stderr or f"status {ran.returncode}")
    return Once(json.loads(ran.stdout.splitlines()[-1]), "")


def compared(name: str, runs: list[Once]) -> Iterator[str]:
    """A line for each program that had another answer than is due, or not always the same."""
    ended = [run.answers for run in runs if not run.said]
    for program in dict.fromkeys(one for answers in ended for one in answers):
        counts = Counter(answers.get(program, "nothing") for answers in ended)
        is_wrong = any(answer.startswith(WRONG) for answer in counts)
        if is_wrong or len(counts) > 1:
            told = "; ".join(f"{count} of {len(ended)}: {answer}" for answer, count in counts.items())
            yield f"{'wrong' if is_wrong else 'differs'}: {name}: {program}: {told}"
    yield from (f"{WRONG}: {name}: 1 of {len(runs)} has failed: {run.said}" for run in runs if run.said)


def main() -> int:
    asked = argparse.ArgumentParser(description=__doc__, formatter_class=argparse.RawDescriptionHelpFormatter)
    asked.add_argument("--times", type=int, default=5)
    asked.add_argument("--pure", action="store_true", help="with the hooks in Python")
    asked.add_argument("--once", action="store_true", help=argparse.SUPPRESS)
    asked.add_argument("names", nargs="*", metavar="NAME", help=f"{', '.join(TABLES)}, or a module of tests")
    words = asked.parse_args()
    if words.once:
        told = [TABLES.get(name, partial(of_tests, name))() for name in words.names]
        print("", json.dumps(told[0]), sep="\n")
        return 0
    counts = Counter[str]()
    for name in words.names or [*TABLES, "test_keys"]:
        lines = list(compared(name, [once(name, "1" if words.pure else "") for _ in range(words.times)]))
        counts.update(line.partition(":")[0] for line in lines)
        print(*lines, f"{name}: {words.times} times", sep="\n", flush=True)
    print(f"{counts['wrong']} wrong, {counts['differs']} differ")
    return 1 if counts["wrong"] else 0


if __name__ == "__main__":
    sys.exit(main())
