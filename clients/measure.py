#!/usr/bin/env python3
"""Measures what each client costs a program: the processor's time for a turn through a lock and through a channel, with a trace.

The same program runs without a trace and with one, by turns, five times each or more. A program whose lock or channel goes from thread to
thread runs until its traced runs have made 100000 reports. Told is the difference of the middle times. It has the threads of the tracer in it,
and not the collector.

Then it measures a lock that nobody else wants and that touches nothing, in Java and Rust, by the time of its thread
alone. The lock of the language and the one that is wrapped take turns, and the best of several rounds is told.

Usage: clients/measure.py [LANGUAGE..], of python, java, rust and go. It builds the programs first, as a user would, and takes less than three
minutes on a quiet machine.
"""

from __future__ import annotations

import os
import statistics
import subprocess
import sys
import tempfile
from pathlib import Path

from wrappers import CLIENTS, Programs, times_of_free_lock

from itc_trace import Collector, Session

LEAST_RUNS = 5
FREE = ("java", "rust")
LEAST_REPORTS = 100_000
# What a turn goes through, how many turns a run has, and how many reports its runs are to make. One thread alone reports next to nothing.
PROGRAMS = {"lock_turns": ("A lock that nobody else acquires", 100_000, 0),
            "lock_handed": ("A lock that goes from thread to thread", 3_000, LEAST_REPORTS),
            "channel_turns": ("An item that goes from thread to thread", 3_000, LEAST_REPORTS)}
PYTHON = """import contextlib, itc_trace, os, queue, sys, threading
TURNS = 3_000

def touch_under(lock):
    with lock:
        itc_trace.touch("stock", write=True)

def lock_turns():
    lock = threading.Lock()
    for _ in range(100_000):
        touch_under(lock)

def lock_handed():
    lock, turns = threading.Lock(), [os.pipe(), os.pipe()]
    os.write(turns[0][1], b"1")
    def work(own):
        for _ in range(TURNS // 2):
            os.read(turns[own][0], 1)
            touch_under(lock)
            os.write(turns[1 - own][1], b"1")
    run(lambda: work(0), lambda: work(1))

def channel_turns():
    items, done = queue.Queue(), os.pipe()
    def take():
        for _ in range(TURNS):
            items.get()
            itc_trace.touch("stock", write=True)
            os.write(done[1], b"1")
    def put():
        for turn in range(TURNS):
            itc_trace.touch("item", write=True)
            items.put(turn)
            os.read(done[0], 1)
    run(take, put)

def run(*bodies):
    threads = [threading.Thread(target=body) for body in bodies]
    for thread in threads:
        thread.start()
    for thread in threads:
        thread.join()

with itc_trace.tracing() if os.environ.get("ITC_TRACE_PORT") else contextlib.nullcontext():
    globals()[sys.argv[1]]()
"""


def build(language: str, folder: Path) -> None:
    """Builds the programs of the language, with all optimizations."""
    source = CLIENTS / language
    if language == "java":
        sources = [*source.glob("src/main/java/example/hometturi/itctrace/*.java"), *source.glob("examples/*.java")]
        subprocess.run(["javac", "-nowarn", "-d", folder / "java", *sources], check=True)
    elif language == "rust":
        words = ["cargo", "build", "--quiet", "--offline", "--release", "--examples", "--target-dir", folder / "rust"]
        subprocess.run(words, cwd=source, check=True)
        for name in ("wrappers", "free_lock"):
            (folder / "rust/release/examples" / name).rename(folder / f"rust_{name}")
    elif language == "go":
        subprocess.run(["go", "build", "-o", folder / "go_wrappers", "./wrappers"], cwd=source, check=True)
    else:
        (folder / "python.py").write_text(PYTHON)


def words_of(language: str, folder: Path, name: str) -> list[str]:
    if language == "python":
        return [sys.executable, str(folder / "python.py"), name]
    if language == "java":
        return ["java", "-cp", str(folder / "java"), "Wrappers", name]
    return Programs(language, folder).words(name)


def seconds(words: list[str], port: str) -> float:
    """The processor's time of a run. Without a port nothing is traced."""
    environment = {**os.environ, "ITC_TRACE_PORT": port, "PYTHONPATH": str(CLIENTS / "python")}
    ran = subprocess.Popen(words, env=environment, stdout=subprocess.DEVNULL)
    _, status, used = os.wait4(ran.pid, 0)
    ran.returncode = status
    if status:
        raise RuntimeError(f"{words} ends with status {status}")
    return used.ru_utime + used.ru_stime


def traced(words: list[str]) -> tuple[float, int]:
    """The processor's time of a traced run, and how many reports it made."""
    with Collector() as collector:
        used = seconds(words, str(collector.port))
        with Session("trace", collector.port, "view") as session:
            return used, session.count()[0]


def cost_of(language: str, folder: Path, program: str) -> str:
    """The microseconds that a turn costs. How often the program ran, and what it reported, is told on standard error."""
    told, turns, least_reports = PROGRAMS[program]
    words, runs, reports = words_of(language, folder, program), [], 0
    while len(runs) < LEAST_RUNS or reports < least_reports:
        without, (with_trace, reported) = seconds(words, ""), traced(words)
        if reported == 0:
            raise RuntimeError(f"{words} reports nothing")
        runs.append((without, with_trace))
        reports += reported
    cost = statistics.median(run[1] for run in runs) - statistics.median(run[0] for run in runs)
    print(f"{language}: {told}: {len(runs)} traced runs, {reports} reports", file=sys.stderr, flush=True)
    return f"{cost / turns * 1e6:.1f}"


def free_lock(language: str, folder: Path, of_whom: str) -> str:
    """A row of the nanoseconds that a turn costs: of the language, wrapped without a trace, and with one.

    The last column is how many times that of the language the one with a trace is.
    """
    words = Programs(language, folder).words_of_free_lock()
    environment = {**os.environ, "ITC_TRACE_PORT": ""}
    without = subprocess.run([*words, of_whom], env=environment, capture_output=True, text=True, check=True).stdout.split()[2]
    own, with_trace = times_of_free_lock(words, of_whom)
    reader = ", for a reader" if of_whom == "reader" else ""
    return f"| {language.title()}{reader} | {own} | {without} | {with_trace} | {with_trace / own:.1f} |"


def main() -> None:
    print(f"| Client | {' | '.join(told for told, _, _ in PROGRAMS.values())} |\n|---|---|---|---|")
    free: list[str] = []
    for language in sys.argv[1:] or ["python", "java", "rust", "go"]:
        with tempfile.TemporaryDirectory() as name:
            build(language, Path(name))
            costs = [cost_of(language, Path(name), program) for program in PROGRAMS]
            print(f"| {language} | {' | '.join(costs)} |", flush=True)
            free += [free_lock(language, Path(name), of_whom) for of_whom in ("lock", "reader") if language in FREE]
    head = "| Client | The lock of the language | Wrapped, without a trace | With a trace | Times |"
    print(f"\n{head}", "|---|---|---|---|---|", *free, sep="\n")


if __name__ == "__main__":
    main()
