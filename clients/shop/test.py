"""Looks at what one command tells of a system of a Python, a Java and a Go process: its races, and what was not seen of it.

Usage: clients/shop/test.py. The last line is 'shop: N passed'. Without javac or go it says so, and passes nothing.
"""

from __future__ import annotations

import shutil
import sys
import tempfile
from pathlib import Path

sys.path.insert(0, str(Path(__file__).resolve().parent.parent))
from shop import CLIENTS, build, commands
from wrappers import INCOMPLETE, NO_RACE, RACES, Check, Wrong, check, marked, run_all, run_system

NAMES = ["store", "sales", "truck"]
SOURCES = [CLIENTS / "shop/store.py", CLIENTS / "java/examples/Sales.java", CLIENTS / "go/truck/main.go"]


def check_races(built: Path, status: int, *words: str) -> None:
    """One list has the lines of all three, once, with one status."""
    with tempfile.TemporaryDirectory() as name:
        folder = Path(name)
        ran = run_system(folder, **commands(built, folder, *words))
    lines = {line for source in SOURCES for line in marked(source, "race", "shop")}
    check(ran, status, lines if status == RACES else set(), set())
    if ran.stderr.count("in this run") != 1 or len(lines) != 2 * len(SOURCES):
        raise Wrong(f"not one list of {sorted(lines)}\n{ran.stderr}")


def check_started_again(built: Path, name: str, status: int) -> None:
    """A process of Go that is started again comes after its first run, whose place it takes. One of Java is not in order with it."""
    with tempfile.TemporaryDirectory() as place:
        words = commands(built, Path(place))[name]
        ran = run_system(Path(place), **{name: ["sh", "-c", '"$@"; "$@"', "sh", *words]})
    lines = marked(SOURCES[NAMES.index(name)], "race", "shop") if status == RACES else set()
    check(ran, status, lines, set())
    tell_once(ran.stderr, f"itc_trace: process {name} reported 2 times: it was started again")


def check_killed(built: Path, name: str) -> None:
    """A process that waits for another one is killed."""
    with tempfile.TemporaryDirectory() as place:
        words, number = commands(built, Path(place), "fixed")[name], Path(place) / "number"
        killer = f"while [ ! -s {number} ]; do sleep 0.1; done; sleep 1; kill -9 $(cat {number})"
        ran = run_system(Path(place), **{name: ["sh", "-c", f'echo $$ >{number}; exec "$@"', "sh", *words], "killer": ["sh", "-c", killer]})
    if ran.returncode != INCOMPLETE:
        raise Wrong(f"status {ran.returncode}\n{ran.stderr}")
    tell_once(ran.stderr, f"itc_trace: process {name} was ended by SIGKILL")
    tell_once(ran.stderr, f"itc_trace: incomplete: process {name} was ended by SIGKILL")


def check_silent(built: Path) -> None:
    """A process that reports nothing is told beside those that do."""
    with tempfile.TemporaryDirectory() as place:
        ran = run_system(Path(place), **{**commands(built, Path(place)), "quiet": ["true"]})
    if ran.returncode != RACES:
        raise Wrong(f"status {ran.returncode}\n{ran.stderr}")
    tell_once(ran.stderr, "itc_trace: incomplete: process quiet reported nothing")


def tell_once(told: str, words: str) -> None:
    if sum(line.startswith(words) for line in told.splitlines()) != 1:
        raise Wrong(f"not one line says: {words}\n{told}")


def main() -> int:
    missing = [word for word in ("java", "javac", "go") if shutil.which(word) is None]
    if missing:
        print(f"skipped: shop: there is no {missing[0]} here")
        print("shop: 0 passed")
        return 0
    with tempfile.TemporaryDirectory() as name:
        built = Path(name)
        build(built)
        checks = [Check(["lost update"], check_races, (built, RACES)), Check(["in order"], check_races, (built, NO_RACE, "fixed")),
                  Check(["silent"], check_silent, (built,))]
        checks += [Check([f"{one}: killed"], check_killed, (built, one)) for one in ("sales", "truck")]
        checks += [
            Check([f"{one}: started again"], check_started_again, (built, one, status)) for one, status in (("sales", RACES), ("truck", NO_RACE))
        ]
        return run_all("shop", checks)


if __name__ == "__main__":
    sys.exit(main())
