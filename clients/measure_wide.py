#!/usr/bin/env python3
"""Measures what the collector takes for a program of many live tasks, with nurseries and without.

One task starts so many that all live at once. A lock goes from one to the next in a random order, twice through all of
them, and each touches the same thing under it. Then they end and are joined. Told is how many events there are, the
most memory that the collector has had in megabytes, and its processor's time in seconds. The kernel tells these two. A
run counts only if it was seen whole.

Usage: clients/measure_wide.py [--tasks N,..] [--built FOLDER] [LANGUAGE..], of java, rust and go. Without numbers 800
and 1600 tasks are started. It builds the programs first, if no folder has them.
"""

from __future__ import annotations

import argparse
import contextlib
import os
import random
import re
import subprocess
import tempfile
from collections.abc import Iterator
from pathlib import Path
from typing import NamedTuple

from measure import build
from nurseries import NONE, VARIABLE
from wrappers import MOST_SECONDS, Programs

from itc_trace import Session
from itc_trace.record.collector import MOST_EVENTS, MOST_MESSAGES, MOST_TASKS, find_program, free_port

ROUNDS = 2
TENANT = "trace"
LANGUAGES = ("java", "rust", "go")
HEAD = "| Client | Tasks | Without: events | MB | Seconds | With: events | MB | Seconds |"


class Taken(NamedTuple):
    events: int
    megabytes: float
    seconds: float


class Collector:
    """A collector that tells what it has taken."""

    def __init__(self) -> None:
        self.port = free_port()
        limits = ["--events", str(MOST_EVENTS), "--tasks", str(MOST_TASKS), "--messages", str(MOST_MESSAGES)]
        words = [find_program(), "serve", "--port", str(self.port), *limits, TENANT]
        self._process = subprocess.Popen(words, stdout=subprocess.PIPE, stdin=subprocess.DEVNULL)
        assert self._process.stdout is not None
        self._process.stdout.readline()

    def events(self) -> int:
        with Session(TENANT, self.port, "view") as session:
            return session.count()[0]

    def end(self) -> tuple[float, float]:
        """Ends it. Gives its most memory in megabytes, and its processor's time in seconds."""
        status = Path(f"/proc/{self._process.pid}/status").read_text()
        self._process.kill()
        _, self._process.returncode, used = os.wait4(self._process.pid, 0)
        peak = re.search(r"^VmHWM:\s+(\d+)", status, re.M)
        assert peak is not None
        return int(peak[1]) / 1000, used.ru_utime + used.ru_stime


@contextlib.contextmanager
def steps(tasks: int) -> Iterator[str]:
    """A file of what the program does, a step in each line."""
    names = [f"c{number}" for number in range(tasks)]
    lines = [f"main spawn {name}" for name in names]
    chance = random.Random(1)
    for _ in range(ROUNDS):
        for name in chance.sample(names, tasks):
            lines += [f"{name} lock 0", f"{name} touch stock", f"{name} unlock 0"]
    lines += [f"{name} end -" for name in names] + [f"main join {name}" for name in names]
    with tempfile.NamedTemporaryFile("w", suffix=".steps") as file:
        file.write("".join(f"{line}\n" for line in lines))
        file.flush()
        yield file.name


def taken(words: list[str], variables: dict[str, str]) -> Taken:
    collector = Collector()
    try:
        environment = {**os.environ, "ITC_TRACE_PORT": str(collector.port), "ITC_TRACE_TENANT": TENANT, **variables}
        ran = subprocess.run(words, env=environment, capture_output=True, text=True, timeout=MOST_SECONDS)
        events = collector.events()
    finally:
        megabytes, seconds = collector.end()
    if ran.returncode or "done" not in ran.stdout or ran.stderr:
        raise RuntimeError(f"{words}: status {ran.returncode}: {ran.stdout}{ran.stderr}")
    return Taken(events, megabytes, seconds)


def row(language: str, built: Path, tasks: int) -> str:
    with steps(tasks) as file:
        words = Programs(language, built).words("steps", file)
        without, with_them = taken(words, NONE), taken(words, {VARIABLE: ""})
    cells = [f"{one.events} | {one.megabytes:.0f} | {one.seconds:.2f}" for one in (without, with_them)]
    return f"| {language.title()} | {tasks} | {' | '.join(cells)} |"


def main() -> None:
    asked = argparse.ArgumentParser()
    asked.add_argument("--tasks", default="800,1600")
    asked.add_argument("--built", type=Path)
    asked.add_argument("languages", nargs="*", metavar="LANGUAGE")
    words = asked.parse_args()
    print(HEAD, "|---" * HEAD.count(" | ") + "|---|", sep="\n", flush=True)
    for language in words.languages or LANGUAGES:
        with tempfile.TemporaryDirectory() as folder:
            if words.built is None:
                build(language, Path(folder))
            for tasks in map(int, words.tasks.split(",")):
                print(row(language, words.built or Path(folder), tasks), flush=True)


if __name__ == "__main__":
    main()
