"""Looks at what the journals of the clients tell of times and of locks, and at what a program reports by hand.

Each row has the task and the kind that the collector has, and the line of the program. Each event has one time, by the clock of its process. A task's times increase, and no message is received before it was sent. A time is that of
the event, and not that of its report. A lock is acquired and released in the lines that do so. A touch tells the locks that its task holds.

Usage: clients/journals.py FOLDER LANGUAGE.., with the built programs in FOLDER. The last line is 'journals: N passed'.
"""

from __future__ import annotations

import json
import re
import sys
import tempfile
import time
from collections import defaultdict
from pathlib import Path
from typing import Any

from wrappers import (
    NO_RACE, RACES, Check, Programs, Wrong, check, check_events, check_lines, marked, run_all, run_beside, run_system, written)

PROGRAMS = {"contended": NO_RACE, "hand_off": NO_RACE, "condition": NO_RACE, "read_lock": NO_RACE, "by_hand": RACES}
TWO_LOCKS = """main spawn c1
main lock 0
main lock 1
main unlock 0
main unlock 1
c1 lock 1
c1 touch t0
c1 unlock 1
c1 lock 0
main touch t1
c1 unlock 0
c1 end -
"""
"""The lock that is released last is acquired first."""
PAUSE = 0.2
LATE_TAKER = f"""main spawn c1
main touch t0
main put 0
main wait {int(1000 * PAUSE)}
c1 take 0
c1 touch t0
c1 end -
"""
NEARLY = 0.001
ACQUIRES, RELEASES, MAKES = r"\.[Ll]ock\(\)", r"\.([Uu]n)?[Ll]ock\(\)", r"\.[Ll]ock\(|Mutex::new\("
SLOW = 0.05

Times = dict[int, float]


def times_of(rows: list[dict[str, Any]]) -> Times:
    """The time of each event, which one of its rows tells."""
    told = defaultdict(list)
    for row in rows:
        if "event" in row:
            told[row["event"]] += [row["time"]] if "time" in row else []
    for event, times in told.items():
        if len(times) != 1:
            raise Wrong(f"event {event} has the times {times}")
    return {event: times[0] for event, times in told.items()}


def check_order(events: list[dict[str, Any]]) -> None:
    last: dict[str, float] = {}
    sent: dict[str, float] = {}
    for event in events:
        told = event["time"]
        if told < last.get(event["task"], 0.0):
            raise Wrong(f"at {told} {event['task']} is earlier than before: {event}")
        last[event["task"]] = told
        if event["kind"] == "send":
            sent[event["name"]] = told
        if event["kind"] == "recv" and told < sent[event["name"]]:
            raise Wrong(f"received at {told}, and sent at {sent[event['name']]}: {event}")


def check_program(programs: Programs, status: int, *words: str) -> list[dict[str, Any]]:
    """Runs it as a system, and compares the times with the order that the collector has. Gives the events with their times."""
    with tempfile.TemporaryDirectory() as name:
        folder, begun = Path(name), time.time()
        ran = run_system(folder, ["--export", str(folder / "export")], one=programs.words(*words))
        ended = time.time()
        check(ran, status, marked(programs.source, "race", words[0]), set())
        events = [json.loads(line) for line in (folder / "export").read_text().splitlines()[1:]]
        rows = [row for row in rows_of(folder) if "event" in row]
    times = times_of(rows)
    check_events(rows, {event["event"]: (event["kind"], event["task"]) for event in events})
    if words[0] != "steps":
        check_lines(programs, rows)
    if not all(begun - NEARLY <= told <= ended + NEARLY for told in times.values()):
        raise Wrong(f"not between {begun} and {ended}: {times}")
    events = [{**event, "time": times[event["event"]]} for event in events]
    check_order(events)
    return events


def check_times_of(programs: Programs, status: int, name: str) -> None:
    check_program(programs, status, name)


def rows_of(folder: Path) -> list[dict[str, Any]]:
    """The journal of a system that was run there."""
    return [json.loads(line) for line in (folder / "export.journal").read_text().splitlines()]


def check_locks(programs: Programs) -> None:
    """Each touch of the threads of `contended` holds the lock. Those of `lucky_lock` hold none: one stands before it, and one behind it."""
    source = programs.source.read_text().splitlines()
    for name, holds in (("contended", 1), ("lucky_lock", 0)):
        with tempfile.TemporaryDirectory() as folder:
            ran = run_system(Path(folder), ["--export", f"{folder}/export"], one=programs.words(name))
            check(ran, NO_RACE, set(), marked(programs.source, "possible", name))
            rows = [row for row in rows_of(Path(folder)) if row.get("held") or row.get("lock") or row.get("thing")]
        locks = {lock for row in rows for lock in [*row.get("held", []), row.get("lock")] if lock}
        held = {(row["task"] == "one", len(row.get("held", []))) for row in rows if row["thing"]}
        if len(locks) != 1 or held != {(False, holds), (True, 0)}:
            raise Wrong(f"{name} has the locks {locks}, and its touches hold {held}")
        for row in rows:
            if row.get("lock"):
                check_lock_row(programs.source.name, source, row)


def check_lock_row(name: str, source: list[str], row: dict[str, Any]) -> None:
    """Its line hands the lock over, and its label names the line that made the lock, or in Go the one that acquired it first."""
    made = re.fullmatch(r"(acquire|release) lock \((?:.*/)?([^/:]*):(\d+)\)", row["label"])
    does = ACQUIRES if row["kind"] == "recv" else RELEASES
    is_there = made is not None and Path(row["file"]).name == made[2] == name
    if made is None or not is_there or not re.search(does, source[row["line"] - 1]) or not re.search(MAKES, source[int(made[3]) - 1]):
        raise Wrong(f"the line of {row}")


def check_two_locks(programs: Programs) -> None:
    """A lock that is released first may be acquired last. Its time is still before those of later events."""
    with tempfile.TemporaryDirectory() as folder:
        check_program(programs, NO_RACE, "steps", str(written(folder, "steps", TWO_LOCKS)))


def check_late_taker(programs: Programs) -> None:
    """An item was put when it was put, and not when it was taken."""
    with tempfile.TemporaryDirectory() as folder:
        events = check_program(programs, NO_RACE, "steps", str(written(folder, "steps", LATE_TAKER)))
    taken = next(event for event in events if event["kind"] == "recv")
    put = next(event for event in events if event["kind"] == "send" and event["name"] == taken["name"])
    if taken["time"] < put["time"] + PAUSE:
        raise Wrong(f"put at {put['time']}, and taken at {taken['time']}")


def check_slow_collector(programs: Programs) -> None:
    """No event is later than its report, however late the collector answers."""
    reported: list[float] = []

    def reply(_: str) -> str:
        reported.append(time.time())
        time.sleep(SLOW)
        return f"201 {len(reported)}"

    _, journal = run_beside(programs, reply, "odd_names")
    times = times_of([json.loads(line) for line in journal])
    begins = [event for event, told in times.items() if told > reported[event - 1]]
    if len(times) != len(reported) or begins != [1]:  # A process begins when the collector has answered.
        raise Wrong(f"{len(times)} times of {len(reported)} events, and later than their reports are {begins}")


def main() -> int:
    checks: list[Check] = []
    for language in sys.argv[2:]:
        programs = Programs(language, Path(sys.argv[1]))
        checks += [
            Check([f"{language}: times of {name}"], check_times_of, (programs, status, name)) for name, status in PROGRAMS.items()
        ]
        checks += [
            Check([f"{language}: {name}"], call, (programs,)) for name, call in (
                ("locks", check_locks), ("times of two locks", check_two_locks), ("times of a late taker", check_late_taker),
                ("times by a slow collector", check_slow_collector))
        ]
    return run_all("journals", checks)


if __name__ == "__main__":
    sys.exit(main())
