"""Runs programs as people write them, forty of each language, with a race and without one, and looks which of their lines race.

The programs of a file are processes of one system, so that each runs beside many others. That is done again and again, and what is
found has to be the same each time. With a race exactly the lines have to be listed that name the program in a comment, as `race: bank`.

Usage: clients/scenarios.py [--runs N] [--busy N] FOLDER LANGUAGE.., with the built programs in FOLDER. They are run five times, or N times.
So many loops keep the processors busy meanwhile. The last line is 'scenarios: N passed'.
"""

from __future__ import annotations

import argparse
import subprocess
import sys
import tempfile
from collections.abc import Iterator
from contextlib import contextmanager
from itertools import product
from pathlib import Path

from wrappers import CLIENTS, NO_RACE, RACES, listed, marked, run_system

SOURCES = {
    "java": (CLIENTS / "java/examples/Scenarios.java", CLIENTS / "java/examples/Services.java",
             CLIENTS / "java/examples/Habits.java"),
    "rust": (CLIENTS / "rust/scenarios.rs", CLIENTS / "rust/services.rs", CLIENTS / "rust/habits.rs"),
    "go": (CLIENTS / "go/scenarios/main.go", CLIENTS / "go/scenarios/services.go", CLIENTS / "go/scenarios/habits.go"),
}
LEAST = 40
RUNS = 5


def words_of(language: str, built: Path) -> list[str]:
    """What runs a program of this language, but for its name."""
    if language == "java":
        return ["java", "-XX:TieredStopAtLevel=1", "-XX:+UseSerialGC", "-cp", str(built / "java"), "Scenarios"]
    return [str(built / f"{language}_scenarios")]


def systems(language: str, names: list[str]) -> Iterator[tuple[Path, list[str]]]:
    """The programs of each file. Each program names itself there as one that races."""
    left = list(names)
    for source in SOURCES[language]:
        own = [name for name in left if marked(source, "race", name)]
        left = [name for name in left if name not in own]
        yield source, own
    if left:
        sys.exit(f"scenarios: {language}: no line says that it races of {left}")


def faults(source: Path, names: list[str], words: list[str], is_raced: bool) -> Iterator[str]:
    """What was found otherwise than it is to be, if these programs are run once."""
    race = ["race"] if is_raced else []
    with tempfile.TemporaryDirectory() as folder:
        ran = run_system(Path(folder), None, **{name: [*words, name, *race] for name in names})
    if ran.returncode != (RACES if is_raced else NO_RACE):
        yield f"status {ran.returncode}: {ran.stderr[-1500:]}"
    for name in names:
        due = marked(source, "race", name) if is_raced else set()
        found, possible = listed(ran.stderr, "race", name), listed(ran.stderr, "possible race", name)
        if found != due or possible:
            yield f"{name}: races in {sorted(found)}, and is to have them in {sorted(due)}; possible ones in {sorted(possible)}"


@contextmanager
def busy(count: int) -> Iterator[None]:
    """Keeps the processors busy by so many loops."""
    loops = [subprocess.Popen([sys.executable, "-c", "while True: pass"]) for _ in range(count)]
    try:
        yield
    finally:
        for loop in loops:
            loop.kill()
            loop.wait()


def check(language: str, built: Path, runs: int) -> int:
    words = words_of(language, built)
    names = subprocess.run(words, capture_output=True, text=True, check=True).stdout.split()
    if len(names) < LEAST:
        sys.exit(f"scenarios: {language}: {len(names)} programs, and there are to be {LEAST}")
    wrong = 0
    for (source, own), run, is_raced in product(systems(language, names), range(1, runs + 1), (False, True)):
        for fault in faults(source, own, words, is_raced):
            wrong += 1
            print(f"scenarios: wrong: {language}, run {run} {'with races' if is_raced else 'without a race'}: {fault}", flush=True)
    if wrong:
        sys.exit(1)
    print(f"{language}: {len(names)} programs, with a race and without one, {runs} times: right", flush=True)
    return 2 * len(names)


def main() -> None:
    asked = argparse.ArgumentParser()
    asked.add_argument("--runs", type=int, default=RUNS)
    asked.add_argument("--busy", type=int, default=0)
    asked.add_argument("folder", type=Path)
    asked.add_argument("languages", nargs="*", metavar="LANGUAGE")
    words = asked.parse_args()
    with busy(words.busy):
        passed = sum(check(language, words.folder, words.runs) for language in words.languages)
    print(f"scenarios: {passed} passed")


main()
