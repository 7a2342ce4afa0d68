"""Runs the small programs of clients/go/programs, and looks whether exactly those lines race that say so in a comment.

A program is run as a process of a system beside some others. Its lines name it behind `race:` or `possible:`.

Usage: clients/go_programs.py FOLDER [NAME..], with the built program `go_programs` in FOLDER. The last line is 'go programs: N passed'.
ITC_PROGRAM_RUNS says how often each program of an order is run, once where it is not set, and ITC_REQUESTS how many requests the long run
answers, 3000 where it is not set.
"""

from __future__ import annotations

import os
import re
import subprocess
import sys
import tempfile
from collections.abc import Iterator
from pathlib import Path

from peaks import Peaks
from wrappers import (
    CLIENTS, INCOMPLETE, MOST_SECONDS, SYSTEM, Check, Wrong, check_collectors, listed, listed_deadlocks, run_all, run_system,
)

from itc_trace import Collector, Session

SOURCES = sorted((CLIENTS / "go/programs").glob("*.go"))
PAGE = CLIENTS.parent / "docs" / "clients.md"
OF_A_SYSTEM = 12
NO_RACE, RACES = 0, 66
MOST_EVENTS = 30
"""So many events at most are left by what nobody needs."""
MOST_TIMES = 10
"""So many times as long as untraced a free lock may take, by the processor's time."""
TURNS = "1000000"
FEW_REQUESTS = 400
MOST_GROWTH = 6
"""So many times as long four times as many requests may take."""
SYSTEMS = {
    "early_end": (INCOMPLETE, "the trace ended before the program, from "), "late_goroutine": (INCOMPLETE, "the trace ended before the program, from "),
    "ping_pong": (NO_RACE, ""), "exits": (RACES, ""), "panics": (RACES, "breaks off"), "fatal": (RACES, "breaks off"),
    "parent": (NO_RACE, ""), "commands": (NO_RACE, ""), "commands_race": (RACES, ""), "two_kids": (NO_RACE, ""),
    "body": (NO_RACE, ""), "body_race": (RACES, ""), "writer": (NO_RACE, ""), "gone_readers": (NO_RACE, ""), "gone_locks": (NO_RACE, ""),
}
"""Programs that are a system of their own: the status, and what is told if not all was seen."""
FEW = ("readers", "only_readers", "objects", "two_locks")
"""Programs that leave few events."""
COSTS = (("free_lock", "plain_lock"), ("free_reads", "plain_reads"))
KILLED = """{program} victim {file} & while [ ! -e {file} ]; do sleep 0.1; done; kill -9 $!; wait $!; {program} successor"""
REGISTERED = re.compile(r'^\t\t"(\w+)":', re.M)
REQUESTS = os.environ.get("ITC_REQUESTS", "3000")
RUNS = int(os.environ.get("ITC_PROGRAM_RUNS", "1"))


def marked(word: str, name: str) -> set[str]:
    """The lines whose comment names the program behind this word."""
    found = set()
    for source in SOURCES:
        for number, line in enumerate(source.read_text().splitlines(), 1):
            comment = re.search(rf"\b{word}: ([a-z_ ]+)", line)
            if comment and name in comment[1].split():
                found.add(f"{source.name}:{number}")
    return found


def names() -> list[str]:
    """The programs that need no more than a trace for all of them."""
    return REGISTERED.findall((CLIENTS / "go/programs/orders.go").read_text().partition("\n// ")[0])


def check_programs(built: Path, some: list[str]) -> None:
    """Each of these has the races that are due to it, in a system of them all, which is seen whole."""
    processes = {f"p{number}": name for number, name in enumerate(some, 1)}
    with tempfile.TemporaryDirectory() as folder:
        ran = run_system(Path(folder), **{process: [str(built), name] for process, name in processes.items()})
    wrong = [fault for process, name in processes.items() for fault in faults_of(ran.stdout, ran.stderr, process, name)]
    if ran.returncode == INCOMPLETE or "itc_trace: incomplete: " in ran.stderr:
        wrong.append("the run was not seen whole")
    if wrong:
        raise Wrong("\n".join([*wrong, ran.stdout, ran.stderr]))


def check_system(built: Path, name: str) -> None:
    """The program alone has its status, its races and the reason if it was not seen whole. Nothing of it is told to be started again."""
    status, reason = SYSTEMS[name]
    with tempfile.TemporaryDirectory() as folder:
        ran = run_system(Path(folder), one=[str(built), name])
    found = set(re.findall(r"(\w+\.go:\d+)", "".join(re.findall(r"^    .* at .*$", ran.stderr, re.M))))
    told = "\n".join(re.findall("^itc_trace: incomplete: .*$", ran.stderr, re.M))
    is_told = reason in told if reason else not told
    if ran.returncode != status or found != marked("race", name) or not is_told or "started again" in ran.stderr:
        raise Wrong(f"{name}: status {ran.returncode}, races at {sorted(found)}\n{ran.stdout}{ran.stderr}")


def check_killed(built: Path) -> None:
    """A process that takes the place of one that was killed comes after it."""
    with tempfile.TemporaryDirectory() as folder:
        ran = run_system(Path(folder), one=["sh", "-c", KILLED.format(program=built, file=f"{folder}/killed")])
    if ran.returncode != INCOMPLETE or "race on" in ran.stderr or "breaks off" not in ran.stderr:
        raise Wrong(f"status {ran.returncode}\n{ran.stdout}{ran.stderr}")


def check_service(built: Path, name: str, status: int) -> None:
    """A service that is ended by SIGTERM is seen whole."""
    with tempfile.TemporaryDirectory() as name_of_folder:
        folder = Path(name_of_folder)
        (folder / "system.toml").write_text(
            f'[process.store]\ncommand = ["{built}", "{name}"]\nready = "ready"\nservice = true\n'
            f'[process.seller]\ncommand = ["{built}", "kid"]\nafter = ["store"]\n')
        environment = {**os.environ, "PYTHONPATH": str(CLIENTS / "python")}
        ran = subprocess.run([sys.executable, "-m", "itc_trace", "system", "--all", str(folder / "system.toml")], env=environment,
                             capture_output=True, text=True, timeout=MOST_SECONDS, check=False)
    if ran.returncode != status or "incomplete" in ran.stderr:
        raise Wrong(f"{name}: status {ran.returncode}\n{ran.stdout}{ran.stderr}")


def measured(built: Path, *words: str, is_traced: bool = True) -> tuple[float, int]:
    """The processor's time of a run, and how many events it leaves."""
    with Collector() as collector:
        environment = {**os.environ, "ITC_TRACE_PORT": str(collector.port) if is_traced else ""}
        ran = subprocess.Popen([str(built), *words], env=environment, stdout=subprocess.DEVNULL)
        _, ran.returncode, used = os.wait4(ran.pid, 0)
        if ran.returncode:
            raise Wrong(f"{words} ends with status {ran.returncode}")
        with Session("trace", collector.port, "view") as session:
            return used.ru_utime + used.ru_stime, session.count()[0]


def check_few(built: Path, name: str) -> None:
    """What nobody comes after leaves nothing in the trace, and takes no time that grows with its square."""
    _, events = measured(built, name, "10000")
    if events > MOST_EVENTS:
        raise Wrong(f"{name} leaves {events} events")


def check_costs(built: Path, traced: str, plain: str) -> None:
    """A free lock takes at most ten times as long as untraced, by the best of seven runs of each, made by turns."""
    turns = [(measured(built, traced, TURNS)[0], measured(built, plain, TURNS)[0]) for _ in range(7)]
    own, other = map(min, zip(*turns))
    if own > MOST_TIMES * other:
        raise Wrong(f"{traced} takes {own:.3f} s, and untraced {other:.3f} s")


def check_handler(built: Path) -> None:
    """Four times as many requests take at most six times as long, by the best of five runs of each, made by turns."""
    turns = [(measured(built, "requests", str(FEW_REQUESTS))[0], measured(built, "requests", str(4 * FEW_REQUESTS))[0]) for _ in range(5)]
    few, many = map(min, zip(*turns))
    if many > MOST_GROWTH * few:
        raise Wrong(f"{FEW_REQUESTS} requests take {few:.3f} s, and four times as many {many:.3f} s")


def check_requests(built: Path, *before: str) -> None:
    """A long run is divided, seen whole, and its memory stays as it is. Requests that forget the lock race across parts.

    What comes before the words of the program may change its environment.
    """
    with tempfile.TemporaryDirectory() as folder, Peaks(Path(folder) / SYSTEM) as peaks:
        ran = run_system(Path(folder), one=[*before, str(built), "requests", REQUESTS])
    if ran.returncode != RACES or listed(ran.stderr, "race", "one") != marked("race", "requests") or "incomplete" in ran.stderr:
        raise Wrong(f"status {ran.returncode}\n{ran.stdout}{ran.stderr}")
    if not re.search(r"of part \d", ran.stderr):
        raise Wrong(f"the run was not divided\n{ran.stderr}")
    check_collectors(peaks)


def faults_of(output: str, told: str, process: str, name: str) -> Iterator[str]:
    for word, mark in (("race", "race"), ("possible race", "possible")):
        found, due = listed(told, word, process), marked(mark, name)
        if found != due:
            yield f"{name}: the lines of each {word} are {sorted(found)} in place of {sorted(due)}"
    found, due = listed_deadlocks(told, process), marked("deadlock", name)
    if found != due:
        yield f"{name}: the lines of each possible deadlock are {sorted(found)} in place of {sorted(due)}"
    if f"{process} | done\n" not in output:
        yield f"{name} did not go on to its end"


def check_table() -> None:
    """The tables of Go name each program of an order, and no others."""
    tables = PAGE.read_text().partition("## Go")[2].partition("\n## ")[0]
    rows = re.findall(r"^\| .* \| ([^|]*) \|$", tables, re.M)
    named = {name for row in rows for name in re.findall(r"`(\w+)`", row)}
    due = {*names(), *SYSTEMS, *FEW, *(name for pair in COSTS for name in pair), "killed", "requests", "service", "plain_service"}
    if named != due:
        raise Wrong(f"{PAGE.name} lacks {sorted(due - named)}, and has {sorted(named - due)}, which nothing runs")


def main() -> int:
    built = Path(sys.argv[1]) / "go_programs"
    chosen = sys.argv[2:] or names()
    some = [chosen[first:first + OF_A_SYSTEM] for first in range(0, len(chosen), OF_A_SYSTEM)]
    checks = [Check([f"go: {name}" for name in one], check_programs, (built, one)) for one in some for _ in range(RUNS)]
    if not sys.argv[2:]:
        checks += [Check([f"go: {name}"], check_system, (built, name)) for name in SYSTEMS]
        checks += [Check([f"go: {name}"], check_few, (built, name)) for name in FEW]
        checks += [Check([f"go: {traced}"], check_costs, (built, traced, plain)) for traced, plain in COSTS]
        checks += [
            Check(["go: killed"], check_killed, (built,)), Check(["go: requests"], check_requests, (built,)),
            Check(["go: requests, without garbage collection"], check_requests, (built, "env", "GOGC=off")),
            Check(["go: growing requests"], check_handler, (built,)),
            Check(["go: service"], check_service, (built, "service", NO_RACE)),
            Check(["go: plain_service"], check_service, (built, "plain_service", RACES)), Check(["go: table"], check_table, ()),
        ]
    return run_all("go programs", checks)


if __name__ == "__main__":
    sys.exit(main())
