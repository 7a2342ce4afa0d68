"""Measures programs whose keys, objects, tasks and connections come and go, untraced and traced.

Usage: python3 measure_live.py [--small] [NAME..]

It writes a row of a table for each run: processor time, time by the clock, the greatest memory of the program and of
any collector, and whether the run was whole. `--small` takes the sizes that the tests take. A program whose packages
are not here is skipped. The hour of the server is run by its name alone, with the seconds in `ITC_LIVE_SECONDS`.
"""

from __future__ import annotations

import importlib.util
import os
import subprocess
import sys
import tempfile
import threading
import time
from collections.abc import Iterator
from pathlib import Path
from typing import NamedTuple

FOLDER = Path(__file__).resolve().parent
LOOK_SECONDS = 0.02
TIME_LIMIT = float(os.environ.get("ITC_LIVE_LIMIT", "400"))
TOO_LONG, TOO_LATE = "no end", -1000
STATUSES = {0: "whole", 66: "whole, races"}
TICK = os.sysconf("SC_CLK_TCK")
HEAD = (
    "Program", "Size", "Untraced: s", "MB", "Traced: s", "Beside", "Behind its end", "MB", "Collector: MB", "Journal: MB",
    "Run",
)

IN_THREADS = """
import sys, threading
size = int(sys.argv[1])
def in_threads(*functions):
    threads = [threading.Thread(target=function) for function in functions]
    for thread in threads:
        thread.start()
    for thread in threads:
        thread.join()
"""
IN_LOOP = """
import asyncio, sys, threading
size = int(sys.argv[1])
lock, cache = threading.Lock(), {}
async def one(number):
    await asyncio.sleep(0)
    with lock:
        cache[number % 100] = number
"""
RUN_LOOP = """
asyncio.run(main())
"""

KEYS = IN_THREADS + """
cache, lock = {}, threading.Lock()
def use(first):
    for number in range(first, first + size // 2):
        with lock:
            cache[number] = number
        if number - first >= 10:
            with lock:
                cache.pop(number - 10)
in_threads(lambda: use(0), lambda: use(10_000_000))
"""
JOBS = IN_THREADS + """
import queue
jobs, done, lock = queue.Queue(100), {"done": 0}, threading.Lock()
def work():
    while (job := jobs.get()) is not None:
        job["result"] = job["number"] + 1
        with lock:
            done["done"] += 1
def make():
    for number in range(size):
        jobs.put({"number": number})
    for _ in range(4):
        jobs.put(None)
in_threads(make, *[work] * 4)
"""
POOL = IN_THREADS + """
from concurrent.futures import ThreadPoolExecutor
done, lock = {"done": 0}, threading.Lock()
def work(number):
    with lock:
        done["done"] += 1
    return number
with ThreadPoolExecutor(4) as pool:
    for first in range(0, size, 100):
        for _ in pool.map(work, range(first, first + 100)):
            pass
"""
CYCLES = IN_THREADS + """
class Node:
    def __init__(self):
        self.own = self
        self.items = [self]
def make():
    for _ in range(size):
        Node().items.append(1)
in_threads(make, make)
"""
THREADS = IN_THREADS + """
totals, lock = {"served": 0}, threading.Lock()
def serve():
    with lock:
        totals["served"] += 1
for _ in range(size // 4):
    in_threads(serve, serve, serve, serve)
"""
LOCKS = IN_THREADS + """
class Account:
    def __init__(self):
        self.lock, self.money = threading.Lock(), 0
accounts = {}
def use(key):
    for _ in range(size // 2):
        account = accounts[key] = Account()
        with account.lock:
            account.money += 1
        with account.lock:
            account.money += 1
in_threads(lambda: use(0), lambda: use(1))
"""
MESSAGES = IN_THREADS + """
import queue
def use():
    for number in range(size // 2):
        box, event = queue.Queue(), threading.Event()
        box.put(number)
        event.set()
        with threading.Lock():
            pass
in_threads(use, use)
"""
CACHES = IN_THREADS + """
import cachetools
caches = cachetools.TTLCache(64, 0.05), cachetools.LRUCache(64)
lock = threading.Lock()
def use(first):
    for turn in range(size):
        for cache in caches:
            with lock:
                key = (first * 31 + turn * 7) % 200
                if cache.get(key) is None:
                    cache[key] = turn
in_threads(*[lambda first=first: use(first) for first in range(8)])
"""
GATHER = IN_LOOP + """
async def main():
    for number in range(size):
        await asyncio.gather(one(number), one(number))
""" + RUN_LOOP
FETCHES = """
import asyncio, sys, threading
from tornado.httpclient import AsyncHTTPClient
from tornado.httpserver import HTTPServer
from tornado.netutil import bind_sockets
from tornado.web import Application, RequestHandler
size = int(sys.argv[1])
class Hello(RequestHandler):
    async def get(self):
        await asyncio.sleep(0)
        self.write("hello")
async def main():
    sockets = bind_sockets(0, "127.0.0.1")
    server = HTTPServer(Application([("/", Hello)], log_function=lambda handler: None))
    server.add_sockets(sockets)
    client = AsyncHTTPClient(max_clients=100)
    url = f"http://localhost:{sockets[0].getsockname()[1]}/"
    answers = await asyncio.gather(*(client.fetch(url) for _ in range(size)))
    assert all(answer.body == b"hello" for answer in answers)
""" + RUN_LOOP
ONE_LOCK = """
import asyncio, sys
size = int(sys.argv[1])
totals = {"done": 0}
async def work(lock):
    async with lock:
        totals["done"] += 1
        await asyncio.sleep(0)
async def main():
    lock = asyncio.Lock()
    await asyncio.gather(*(work(lock) for _ in range(size)))
""" + RUN_LOOP
CONNECTIONS = """
import asyncio, sys
size = int(sys.argv[1])
served = {"served": 0}
async def serve(reader, writer):
    line = await reader.readline()
    served["served"] += 1
    writer.write(line)
    await writer.drain()
    writer.close()
    await writer.wait_closed()
async def ask(port):
    reader, writer = await asyncio.open_connection("127.0.0.1", port)
    writer.write(b"hello\\n")
    assert await reader.readline() == b"hello\\n"
    writer.close()
    await writer.wait_closed()
async def client(port):
    for _ in range(size // 20):
        await ask(port)
async def main():
    server = await asyncio.start_server(serve, "127.0.0.1", 0)
    port = server.sockets[0].getsockname()[1]
    await asyncio.gather(*(client(port) for _ in range(20)))
    server.close()
    await server.wait_closed()
""" + RUN_LOOP
SERVER = """
import asyncio, functools, os, queue, sqlite3, sys, threading, time
size = float(os.environ.get("ITC_LIVE_SECONDS", sys.argv[1]))
end = time.monotonic() + size
class Cache:
    def __init__(self, most):
        self.lock, self.entries, self.most, self.hits = threading.Lock(), {}, most, 0
    def get(self, key, make):
        with self.lock:
            if key in self.entries:
                self.hits += 1
                self.entries[key] = self.entries.pop(key)
                return self.entries[key]
        made = make(key)
        with self.lock:
            self.entries[key] = made
            while len(self.entries) > self.most:
                del self.entries[next(iter(self.entries))]
        return made
class Session:
    def __init__(self, user):
        self.user, self.requests = user, 0
class Database:
    def __init__(self):
        self.lock = threading.Lock()
        self.connection = sqlite3.connect(":memory:", check_same_thread=False)
        self.connection.execute("create table visits (user integer primary key, count integer)")
    def visit(self, user):
        with self.lock:
            self.connection.execute("insert into visits values (?, 1) on conflict do update set count = count + 1", (user,))
            return self.connection.execute("select count from visits where user = ?", (user,)).fetchone()[0]
cache, database, jobs = Cache(50), Database(), queue.Queue(100)
sessions, totals, lock = {}, {"done": 0, "planted": 0}, threading.Lock()
served = 0
def page_of(key):
    return {"key": key, "text": str(key) * 10}
def work():
    while (job := jobs.get()) is not None:
        job["count"] = database.visit(job["user"])
        with lock:
            totals["done"] += 1
            sessions.pop(job["session"], None)
def plant():
    totals["planted"] += 1
async def handle(reader, writer):
    global served
    line = await reader.readline()
    number = int(line)
    session = Session(number % 300)
    with lock:
        sessions[number] = session
    session.requests += 1
    page = cache.get(number % 200, page_of)
    served += 1
    await asyncio.to_thread(jobs.put, {"user": session.user, "session": number})
    writer.write(page["text"].encode() + b"\\n")
    await writer.drain()
    writer.close()
async def ask(port, number):
    reader, writer = await asyncio.open_connection("127.0.0.1", port)
    writer.write(b"%d\\n" % number)
    await reader.readline()
    writer.close()
    await writer.wait_closed()
async def main():
    server = await asyncio.start_server(handle, "127.0.0.1", 0)
    port, number = server.sockets[0].getsockname()[1], 0
    while time.monotonic() < end:
        await asyncio.gather(*(ask(port, number + each) for each in range(10)))
        number += 10
    server.close()
    print(number, flush=True)
workers = [threading.Thread(target=work, name="worker") for _ in range(4)]
for worker in workers: worker.start()
asyncio.run(main())
planted = [threading.Thread(target=plant) for _ in range(2)]
for thread in planted: thread.start()
for thread in [*planted]: thread.join()
for _ in workers: jobs.put(None)
for worker in workers: worker.join()
"""

SHAPES = {
    "gather_in_loops": """
async def main():
    for first in range(0, size, 8):
        await asyncio.gather(*(one(first + number) for number in range(8)))
""",
    "task_group": """
async def main():
    for first in range(0, size, 5):
        async with asyncio.TaskGroup() as group:
            for number in range(5):
                group.create_task(one(first + number))
""",
    "as_completed": """
async def main():
    for first in range(0, size, 10):
        for done in asyncio.as_completed([one(first + number) for number in range(10)]):
            await done
""",
    "queue_of_workers": """
async def work(jobs):
    for _ in range(5):
        await one(await jobs.get())
        jobs.task_done()
async def main():
    for first in range(0, size, 4):
        jobs = asyncio.Queue()
        workers = [asyncio.create_task(work(jobs)) for _ in range(4)]
        for number in range(20):
            jobs.put_nowait(first + number)
        await jobs.join()
        await asyncio.gather(*workers)
""",
    "wait_for": """
async def late(number):
    await asyncio.sleep(60)
async def main():
    async def client(first):
        for number in range(first, size, 20):
            try:
                await asyncio.wait_for(asyncio.create_task(late(number) if number % 7 == 0 else one(number)), 0.005)
            except TimeoutError:
                pass
    await asyncio.gather(*(client(first) for first in range(10)))
    await asyncio.gather(*(client(first) for first in range(10, 20)))
""",
    "streams": """
async def echo(reader, writer):
    while line := await reader.readline():
        await one(int(line))
        writer.write(line)
    writer.close()
async def ask(port, number):
    reader, writer = await asyncio.open_connection("127.0.0.1", port)
    writer.write(b"%d\\n" % number)
    assert await reader.readline() == b"%d\\n" % number
    writer.close()
    await writer.wait_closed()
async def main():
    server = await asyncio.start_server(echo, "127.0.0.1", 0)
    port = server.sockets[0].getsockname()[1]
    for first in range(0, size, 20):
        await asyncio.gather(*(ask(port, first + number) for number in range(10)))
    server.close()
    await server.wait_closed()
""",
    "to_thread": """
def in_thread(number):
    with lock:
        cache[number % 100] = number
async def call(number):
    await asyncio.to_thread(in_thread, number)
async def main():
    for first in range(0, size, 8):
        await asyncio.gather(*(call(first + number) for number in range(8)))
""",
    "executor": """
from concurrent.futures import ThreadPoolExecutor
def in_thread(number):
    with lock:
        cache[number % 100] = number
async def call(pool, number):
    await asyncio.get_running_loop().run_in_executor(pool, in_thread, number)
    await one(number)
async def main():
    with ThreadPoolExecutor(2) as pool:
        for first in range(0, size, 4):
            await asyncio.wait([asyncio.create_task(call(pool, first + number)) for number in range(4)])
""",
    "shielded_and_cancelled": """
async def cancelled(task):
    task.cancel()
    try:
        await task
    except asyncio.CancelledError:
        pass
async def main():
    for first in range(0, size, 4):
        kept = asyncio.create_task(one(first))
        shield = asyncio.shield(kept)
        other = asyncio.create_task(one(first + 1))
        await asyncio.sleep(0)
        await cancelled(other)
        shield.cancel()
        await kept
        forgotten = asyncio.create_task(one(first + 2))
        del forgotten
        await asyncio.create_task(one(first + 3))
""",
    "callbacks": """
done = []
def called(task):
    done.append(task.get_name())
    if len(done) > 20:
        done.clear()
async def main():
    loop = asyncio.get_running_loop()
    for first in range(0, size, 2):
        over = loop.create_future()
        tasks = [asyncio.create_task(one(first + number)) for number in range(2)]
        for task in tasks:
            task.add_done_callback(called)
        tasks[1].add_done_callback(lambda _: loop.call_soon(over.set_result, None))
        await over
""",
}


class Program(NamedTuple):
    """A program, the sizes that it is run by, that of the tests, and the bounds of the tests in MB:
    of the program and of the collector."""

    source: str
    sizes: tuple[int, ...]
    small: int
    megabytes: int
    of_collector: int
    watched: tuple[str, ...] = ()


PROGRAMS = {
    "keys": Program(KEYS, (20_000, 80_000, 200_000), 20_000, 60, 60),
    "jobs": Program(JOBS, (20_000, 200_000), 10_000, 60, 60),
    "pool": Program(POOL, (20_000, 200_000), 10_000, 60, 60),
    "cycles": Program(CYCLES, (20_000, 100_000), 20_000, 60, 60),
    "threads": Program(THREADS, (4_000, 20_000), 4_000, 60, 60),
    "locks": Program(LOCKS, (20_000, 200_000), 20_000, 60, 60),
    "messages": Program(MESSAGES, (20_000, 200_000), 20_000, 60, 60),
    "caches": Program(CACHES, (300, 1_500), 100, 100, 100, ("cachetools",)),
    "gather": Program(GATHER, (4_000, 50_000, 500_000), 10_000, 60, 60),
    "fetches": Program(FETCHES, (100, 200, 400, 800), 100, 100, 100),
    "one_lock": Program(ONE_LOCK, (400, 1_600), 400, 60, 100),
    "connections": Program(CONNECTIONS, (200, 400, 800, 1_600), 200, 60, 100),
    **{
        name: Program(IN_LOOP + source + RUN_LOOP, (10_000, 100_000), 6_000, 60, 100)
        for name, source in SHAPES.items()
    },
}
BY_NAME_ALONE = {"server": Program(SERVER, (3_600,), 10, 100, 100)}
PACKAGES = {"caches": "cachetools", "fetches": "tornado"}


class Measured(NamedTuple):
    """What a run took: seconds, by the processor, by the clock, and of those behind the program's end; and megabytes."""

    processor: float
    clock: float
    behind: float
    megabytes: float
    of_collector: float
    of_journal: float
    status: int
    errors: str

    @property
    def verdict(self) -> str:
        if self.status in STATUSES:
            return STATUSES[self.status]
        first = next((line for line in self.errors.splitlines() if "tracing stops" in line or "incomplete" in line), "")
        return f"{TOO_LONG if self.status == TOO_LATE else self.status} {first.replace('itc_trace: ', '')}".strip()


class _Looking(threading.Thread):
    """Looks at the memory of a process and of those that it starts, as long as it lives."""

    def __init__(self, process: subprocess.Popen[str]) -> None:
        super().__init__(daemon=True)
        self._process = process
        self.most = {"program": 0, "collector": 0}
        self.seconds: dict[int, float] = {}
        self.last_seen: float | None = None
        """When the program was last seen to run."""

    def run(self) -> None:
        while self._process.poll() is None:
            for number in [self._process.pid, *_children_of(self._process.pid)]:
                self._look_at(number)
            time.sleep(LOOK_SECONDS)

    def _look_at(self, number: int) -> None:
        try:
            words = Path(f"/proc/{number}/cmdline").read_bytes().split(b"\0")
            status = Path(f"/proc/{number}/status").read_text()
            numbers = Path(f"/proc/{number}/stat").read_text().rpartition(")")[2].split()
        except OSError:
            return
        self.seconds[number] = (int(numbers[11]) + int(numbers[12])) / TICK
        peak = next((int(line.split()[1]) for line in status.splitlines() if line.startswith("VmHWM")), 0)
        kind = "collector" if words[1:2] == [b"serve"] else "program"
        if b"itc_trace.cli.launch" in words:
            self.last_seen = time.monotonic()
        elif b"itc_trace" in words and kind == "program":
            return
        self.most[kind] = max(self.most[kind], peak)


def _children_of(number: int) -> Iterator[int]:
    try:
        children = Path(f"/proc/{number}/task/{number}/children").read_text().split()
    except OSError:
        return
    for child in map(int, children):
        yield child
        yield from _children_of(child)


def measure(words: list[str], journal: str | None = None) -> Measured:
    """Runs `python3 WORDS..`, which may take the limit of time."""
    environment = {**os.environ, "PYTHONPATH": str(FOLDER)}
    start = time.monotonic()
    with tempfile.TemporaryFile("w+") as errors:
        process = subprocess.Popen(
            [sys.executable, *words], stdout=subprocess.DEVNULL, stderr=errors, text=True, env=environment,
        )
        looking = _Looking(process)
        looking.start()
        try:
            status = process.wait(TIME_LIMIT)
        except subprocess.TimeoutExpired:
            for number in [*_children_of(process.pid), process.pid]:
                os.kill(number, 9)
            process.wait()
            status = TOO_LATE
        end = time.monotonic()
        looking.join()
        errors.seek(0)
        told = errors.read()
    size = os.path.getsize(journal) if journal is not None and os.path.exists(journal) else 0
    return Measured(
        sum(looking.seconds.values()), end - start, end - (looking.last_seen or end), looking.most["program"] / 1024,
        looking.most["collector"] / 1024, size / 1e6, status, told,
    )


def traced(path: str, program: Program, size: int, *words: str) -> Measured:
    """The program of this file, traced."""
    watched = [word for package in program.watched for word in ("--watch", package)]
    with tempfile.TemporaryDirectory() as folder:
        journal = os.path.join(folder, "journal")
        run = ["-m", "itc_trace", "run", *words, "--journal", journal, *watched, path, str(size)]
        return measure(run, journal)


def row_of(name: str, program: Program, path: str, size: int) -> tuple[str, ...]:
    plain, told = measure([path, str(size)]), traced(path, program, size)
    times = told.processor / max(plain.processor, 0.01)
    return (
        name, str(size), f"{plain.processor:.2f}", f"{plain.megabytes:.0f}", f"{told.processor:.2f}", f"{times:.1f}",
        f"{told.behind:.1f}", f"{told.megabytes:.0f}", f"{told.of_collector:.0f}", f"{told.of_journal:.1f}", told.verdict,
    )


def write_row(words: tuple[str, ...]) -> None:
    print(f"| {' | '.join(words)} |", flush=True)


def main() -> None:
    words = [word for word in sys.argv[1:] if word != "--small"]
    known = {**PROGRAMS, **BY_NAME_ALONE}
    write_row(HEAD)
    write_row(("---",) * len(HEAD))
    with tempfile.TemporaryDirectory() as folder:
        for word in words or PROGRAMS:
            name, _, size = word.partition("=")
            package = PACKAGES.get(name)
            if package is not None and importlib.util.find_spec(package) is None:
                print(f"skipped: {name}: there is no {package} here", file=sys.stderr)
                continue
            program, path = known[name], os.path.join(folder, f"{name}.py")
            Path(path).write_text(program.source, encoding="utf-8")
            sizes = (int(size),) if size else (program.small,) if "--small" in sys.argv else program.sizes
            for each in sizes:
                write_row(row_of(name, program, path, each))


if __name__ == "__main__":
    main()
