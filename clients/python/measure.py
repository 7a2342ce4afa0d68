"""Measures what tracing costs, what the relay carries, and how long races take: the numbers of docs/python.md.

Usage: python3 measure.py [cost] [relay] [races]
       python3 measure.py beside FOLDER [TURNS [JOB]]
           what tracing costs with this package and with the one in the folder, by turns: the least and the medians
"""

import asyncio
import http.server
import inspect
import json
import multiprocessing
import os
import queue
import random
import statistics
import subprocess
import sys
import threading
import time
from collections.abc import Callable, Iterator
from pathlib import Path
from typing import Any

from itc_trace import Collector, Session, find_races, shared, touch, tracing

TURNS, TRIES = 10000, 5
PROCESSES, REPORTS, AT_ONCE = 32, 512, 64
EVENTS, THINGS, LOCKS = 16000, 200, 10
REQUESTS, TOUCHES = (250, 1000, 2047), 7


# The cost of one turn of a loop


def lock_turns(turns: int) -> None:
    lock = threading.Lock()
    for _ in range(turns):
        with lock:
            pass


def touch_turns(turns: int) -> None:
    for _ in range(turns):
        touch("x")


def lock_and_touch_turns(turns: int) -> None:
    lock = threading.Lock()
    for _ in range(turns):
        with lock:
            touch("x", write=True)


def queue_turns(turns: int) -> None:
    one: queue.Queue[int] = queue.Queue()
    for _ in range(turns):
        one.put(1)
        one.get()


def two_threads_turns(turns: int) -> None:
    lock = threading.Lock()

    def work() -> None:
        for _ in range(turns // 2):
            with lock:
                pass

    threads = [threading.Thread(target=work) for _ in range(2)]
    for thread in threads:
        thread.start()
    for thread in threads:
        thread.join()


def locked_update_turns(turns: int) -> None:
    stock, lock = shared({"left": 0}, "stock"), threading.Lock()

    def work() -> None:
        for _ in range(turns // 2):
            with lock:
                stock["left"] += 1

    threads = [threading.Thread(target=work) for _ in range(2)]
    for thread in threads:
        thread.start()
    for thread in threads:
        thread.join()


def handed_over_turns(turns: int) -> None:
    one: queue.Queue[int] = queue.Queue()

    def work() -> None:
        for _ in range(turns):
            one.get()

    thread = threading.Thread(target=work)
    thread.start()
    for _ in range(turns):
        one.put(1)
    thread.join()


def asyncio_lock_turns(turns: int) -> None:
    async def main() -> None:
        lock = asyncio.Lock()

        async def work() -> None:
            for _ in range(turns // 100):
                async with lock:
                    touch("x", write=True)

        await asyncio.gather(*(work() for _ in range(100)))

    asyncio.run(main())


class Counting(http.server.BaseHTTPRequestHandler):
    """Counts its requests under a lock."""

    lock = None
    count: dict[str, int] = {}

    def do_GET(self) -> None:
        with self.lock:
            self.count["requests"] += 1
        self.send_response(200)
        self.send_header("Content-Length", "2")
        self.end_headers()
        self.wfile.write(b"ok")

    def log_message(self, *_: object) -> None:
        pass


ASK = """
import sys, urllib.request
for _ in range(int(sys.argv[2])):
    urllib.request.urlopen(f"http://127.0.0.1:{sys.argv[1]}/").read()
"""


def server_turns(turns: int) -> None:
    """So many requests for a hundred turns, from 4 clients in processes of their own."""
    Counting.lock, Counting.count = threading.Lock(), shared({"requests": 0}, "count")
    server = http.server.ThreadingHTTPServer(("127.0.0.1", 0), Counting)
    serving = threading.Thread(target=server.serve_forever, args=(0.01,))
    serving.start()
    words = [sys.executable, "-c", ASK, str(server.server_address[1]), str(turns // 100)]
    for client in [subprocess.Popen(words) for _ in range(4)]:
        client.wait()
    server.shutdown()
    serving.join()
    server.server_close()


def microseconds(run: Callable[[int], None]) -> float:
    start = time.perf_counter()
    run(TURNS)
    return (time.perf_counter() - start) / TURNS * 1e6


def traced_microseconds(run: Callable[[int], None]) -> float:
    traced = tracing().start()
    try:
        return microseconds(run)
    finally:
        traced.close()


def measure_cost() -> None:
    for run in (lock_turns, touch_turns, lock_and_touch_turns, queue_turns, two_threads_turns):
        plain = min(microseconds(run) for _ in range(TRIES))
        traced = min(traced_microseconds(run) for _ in range(TRIES))
        print(f"{run.__name__}: {plain:.1f} microseconds untraced, {traced:.1f} traced", flush=True)


JOBS = {
    "a free lock": lock_turns, "a touch": touch_turns, "a lock and an update, two threads": locked_update_turns,
    "a queue": queue_turns, "a queue, two threads": handed_over_turns, "an asyncio lock, 100 tasks": asyncio_lock_turns,
    "a web server": server_turns,
}


def measure_one(job: str) -> None:
    """Prints the processor time of the job traced, with all that is reported of it, in microseconds for a turn.

    Nothing is watched, since packages of before do not watch.
    """
    watches = "watched" in inspect.signature(tracing).parameters
    traced = (tracing(watched=None) if watches else tracing()).start()
    start = time.process_time()
    JOBS[job](TURNS)
    traced.stop()
    print((time.process_time() - start) / TURNS * 1e6)
    traced.close()


def measure_beside(folder: str, turns: int = TRIES, *jobs: str) -> None:
    for job in jobs or JOBS:
        times: dict[str, list[float]] = {folder: [], str(Path(__file__).parent): []}
        for _ in range(turns):
            for package, found in times.items():
                words = [sys.executable, "-P", __file__, "one", job]  # Not the package beside this file, but that of the path.
                ran = subprocess.run(
                    words, env={**os.environ, "PYTHONPATH": package}, capture_output=True, text=True, check=True,
                )
                found.append(float(ran.stdout))
        for name, of in (("least", min), ("median", statistics.median)):
            before, now = (of(found) for found in times.values())
            print(f"{job}, {name} of {turns}: {before:.1f} before, {now:.1f} now, {now / before:.2f} times", flush=True)


# Reports through the relay


def report(port: int, at_once: int, ready: Any, go: Any, times: Any) -> None:
    with Session("trace", port) as session:
        ready.release()
        go.wait()
        start = time.time()
        for _ in range(0, REPORTS, at_once):
            list(session.ask(["local root"] * at_once))
        times.put((start, time.time()))


def measure_relay() -> None:
    for at_once in (AT_ONCE, 1):
        with Collector("trace") as collector:
            words = [sys.executable, "-m", "itc_trace", "relay", "--listen", "0", "--port", str(collector.port)]
            with subprocess.Popen(words, stdout=subprocess.PIPE) as relay:
                assert relay.stdout is not None
                seconds = report_by_many(int(relay.stdout.readline().split()[1]), at_once)
                relay.terminate()
        print(f"{PROCESSES} processes, {at_once} at once: {PROCESSES * REPORTS / seconds:.0f} reports a second", flush=True)


def report_by_many(port: int, at_once: int) -> float:
    ready, go, times = multiprocessing.Semaphore(0), multiprocessing.Event(), multiprocessing.Queue()
    given = (port, at_once, ready, go, times)
    processes = [multiprocessing.Process(target=report, args=given) for _ in range(PROCESSES)]
    for process in processes:
        process.start()
    for _ in processes:
        ready.acquire()
    go.set()
    told = [times.get() for _ in processes]
    for process in processes:
        process.join()
    return max(end for _, end in told) - min(start for start, _ in told)


# Races of a long trace


def reports(tasks: int, locked: bool) -> Iterator[tuple[str, str, str | None]]:
    """Reports, each with the kind and the thing that the journal has of it: all touches in locks, or none of them."""
    chance, names = random.Random(1), ["root", *(f"t{number}" for number in range(1, tasks))]
    last: dict[int, tuple[str, str]] = {}
    for name in names[1:]:
        yield f"spawn root {name}", "spawn", None
    for number in range(EVENTS):
        task, lock = chance.choice(names), chance.randrange(LOCKS)
        if locked and lock in last and last[lock][1] != task:
            yield f"recv {task} {last[lock][0]}", "recv", None
        yield f"local {task}", chance.choice(["read", "read", "write"]), f"thing{chance.randrange(THINGS)}"
        if locked:
            last[lock] = f"m{number}", task
            yield f"send {task} m{number}", "send", None


def requests(tasks: int) -> Iterator[tuple[str, str, str | None]]:
    """Reports of a server that has a task for each request, and joins none."""
    chance, names = random.Random(1), [f"t{number}" for number in range(1, tasks)]
    for name in names:
        yield f"spawn root {name}", "spawn", None
    for name in names:
        for _ in range(TOUCHES):
            yield f"local {name}", chance.choice(["read", "read", "write"]), f"thing{chance.randrange(THINGS)}"


def measure_races() -> None:
    for locked in (True, False):
        for tasks in (4, 16, 64):
            rows = [report for report, _ in zip(reports(tasks, locked), range(EVENTS))]
            measure_races_of(f"{tasks} tasks, {'locked' if locked else 'free'}", rows)
    for tasks in REQUESTS:
        measure_races_of(f"{tasks} tasks of a server", list(requests(tasks)))


def measure_races_of(what: str, rows: list[tuple[str, str, str | None]]) -> None:
    try:
        from itc_trace.model.verdict import END_ROW
    except ImportError:  # A package that is measured beside this one may have none.
        END_ROW = ""
    with Collector("trace") as collector:
        with Session("trace", collector.port) as session:
            list(session.ask(line for line, _, _ in rows))
        journal = [*(journal_line(event, *row) for event, row in enumerate(rows, 1)), *filter(None, [END_ROW])]
        start = time.perf_counter()
        found = find_races("trace", collector.port, journal)
        seconds = time.perf_counter() - start
    print(f"{what}: {seconds:.2f} s: {found.summary()}", flush=True)


def journal_line(event: int, line: str, kind: str, thing: str | None) -> str:
    row = {"event": event, "task": line.split()[1], "thing": thing, "kind": kind, "file": "f.py", "line": 1, "label": ""}
    return json.dumps(row) + "\n"


if __name__ == "__main__":
    if sys.argv[1:2] == ["one"]:
        measure_one(sys.argv[2])
        sys.exit()
    if sys.argv[1:2] == ["beside"]:
        measure_beside(sys.argv[2], *map(int, sys.argv[3:4]), *sys.argv[4:])
        sys.exit()
    for name, measured in (("cost", measure_cost), ("relay", measure_relay), ("races", measure_races)):
        if name in sys.argv[1:] or len(sys.argv) == 1:
            measured()
