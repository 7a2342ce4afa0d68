#!/usr/bin/env python3
"""Measures what a long run of each client keeps: the most memory that the program, a collector and the command have had.

A program answers so many requests of HTTP, each as a task of its own, one after the other. It runs as a process of a system, which divides
the trace. One request in a thousand has a race. Told is the peak of resident memory in megabytes, as the kernel has it: of the program, of
the greatest collector, and of the command, which hands on all reports and lists the races behind the end. A run counts only if it was
seen whole, and if exactly its races are listed.

Usage: clients/measure_long.py [--requests N,..] [--built FOLDER] [LANGUAGE..], of java, rust and go. Without numbers 5000 and 20000 requests
are answered. It builds the programs first, if no folder has them.
"""

from __future__ import annotations

import argparse
import re
import subprocess
import tempfile
import time
from pathlib import Path

from measure import build
from peaks import Kind, Peaks
from wrappers import CLIENTS, RACES, SYSTEM, WEB, Programs, listed, marked, run_system

MOST_SECONDS = 3600
SOURCES = {**WEB, "go": CLIENTS / "go/programs/requests.go"}


def build_programs(language: str, folder: Path) -> None:
    build(language, folder)
    if language == "go":  # Its program of requests is another one than that of the wrappers.
        subprocess.run(["go", "build", "-o", folder / "go_programs", "./programs"], cwd=CLIENTS / "go", check=True)


def words_of(language: str, folder: Path, count: int) -> list[str]:
    if language == "go":
        return [str(folder / "go_programs"), "requests", str(count)]
    return Programs(language, folder).words("requests", str(count))


def row(language: str, built: Path, count: int) -> str:
    begun = time.monotonic()
    with tempfile.TemporaryDirectory() as folder, Peaks(Path(folder) / SYSTEM) as peaks:
        ran = run_system(Path(folder), seconds=MOST_SECONDS, one=words_of(language, built, count))
    seconds = time.monotonic() - begun
    if ran.returncode != RACES or listed(ran.stderr, "race") != marked(SOURCES[language], "race", "requests") or "incomplete" in ran.stderr:
        raise RuntimeError(f"{language}: status {ran.returncode}: {ran.stderr[-2000:]}")
    events = re.findall(r"(\d+) events", ran.stderr)[-1]
    told = (f"{max(peaks.of(kind)) / 1000:.0f}" for kind in (Kind.PROGRAM, Kind.COLLECTOR, Kind.COMMAND))
    return f"| {language.title()} | {count} | {events} | {seconds:.0f} | {' | '.join(told)} |"


def main() -> None:
    asked = argparse.ArgumentParser()
    asked.add_argument("--requests", default="5000,20000")
    asked.add_argument("--built", type=Path)
    asked.add_argument("languages", nargs="*", metavar="LANGUAGE")
    words = asked.parse_args()
    print("| Client | Requests | Events | Seconds | Program | Collector | Command |", "|---|---|---|---|---|---|---|", sep="\n", flush=True)
    for language in words.languages or list(SOURCES):
        with tempfile.TemporaryDirectory() as folder:
            if words.built is None:
                build_programs(language, Path(folder))
            for count in map(int, words.requests.split(",")):
                print(row(language, words.built or Path(folder), count), flush=True)


if __name__ == "__main__":
    main()
