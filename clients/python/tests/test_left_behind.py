"""What a program leaves at its end is told in one line, and has no status."""

from __future__ import annotations

import re
import unittest

from .support import ProgramCase, run_traced

PRELUDE = "import asyncio, concurrent.futures, queue, threading, time\n"
LEFT = {
    "lock of a thread": ("""
lock = threading.Lock()
thread = threading.Thread(target=lambda: lock.acquire())  # here
thread.start()
thread.join()
""", "lock (FILE:3) that is never released, acquired"),
    "lock of the main thread": ("""
own_lock = threading.RLock()
own_lock.acquire()  # here
""", "own_lock (FILE:3) that is never released, acquired"),
    "thread": ("""
threading.Thread(target=time.sleep, args=(0.3,), name="worker").start()  # here
""", "thread worker that nobody joins, started"),
    "timer": ("""
threading.Timer(0.3, int).start()  # here
""", "a thread that nobody joins, started"),
    "tasks": ("""
async def job(): pass
async def main():
    for _ in range(2):
        asyncio.create_task(job())  # here
    await asyncio.sleep(0.01)
asyncio.run(main())
""", "2 tasks that nobody awaits, started"),
    "task that is cancelled as the loop ends": ("""
async def main():
    asyncio.create_task(asyncio.sleep(100))  # here
asyncio.run(main())
""", "a task that nobody awaits, started"),
    "future": ("""
with concurrent.futures.ThreadPoolExecutor(1) as pool:
    pool.submit(int)  # here
""", "a future whose result nobody takes, submitted"),
    "results of a map": ("""
with concurrent.futures.ThreadPoolExecutor(1) as pool:
    pool.map(int, range(3))  # here
""", "3 futures whose result nobody takes, submitted"),
}
TAKEN = {
    "locks": """
lock, handed, permit = threading.Lock(), threading.Lock(), threading.Semaphore(1)
with lock:
    handed.acquire()
permit.acquire()
thread = threading.Thread(target=handed.release)
thread.start()
thread.join()
""",
    "threads": """
threading.Thread(target=time.sleep, args=(100,), daemon=True).start()
pool = concurrent.futures.ThreadPoolExecutor(1)
pool.submit(int).result()
threading.Thread(target=int).start()
time.sleep(0.3)
""",
    "tasks": """
async def job(): pass
async def main():
    await asyncio.create_task(job())
    await asyncio.gather(*[asyncio.create_task(job()) for _ in range(2)])
    await asyncio.wait([asyncio.create_task(job())])
    await asyncio.wait_for(asyncio.create_task(job()), 10)
    await asyncio.shield(asyncio.create_task(job()))
    asyncio.create_task(job()).add_done_callback(lambda _: None)
    late = asyncio.create_task(job())
    async with asyncio.TaskGroup() as group:
        group.create_task(job())
    await asyncio.to_thread(int)
    late.result()
asyncio.run(main())
""",
    "futures": """
with concurrent.futures.ThreadPoolExecutor(2) as pool:
    pool.submit(int).result()
    pool.submit(int).exception()
    concurrent.futures.wait([pool.submit(int)])
    list(concurrent.futures.as_completed([pool.submit(int)]))
    pool.submit(int).add_done_callback(lambda _: None)
    list(pool.map(int, range(3)))
""",
}


class LeftBehind(ProgramCase):
    def test_each_kind_is_told_with_its_place(self) -> None:
        for kind, (text, words) in LEFT.items():
            with self.subTest(kind):
                program = self.program(PRELUDE + text)
                line = next(number for number, line in enumerate((PRELUDE + text).splitlines(), 1) if "# here" in line)
                ran = run_traced("--watch-nothing", program)
                told = re.findall("^itc_trace: left at the end: (.*)$", ran.stderr, re.M)
                self.assertEqual(told, [f"{words} at {program}:{line}".replace("FILE", program)], ran.stderr)
                self.assertEqual(ran.returncode, 0, ran.stderr)

    def test_what_is_taken_is_not_told(self) -> None:
        for kind, text in TAKEN.items():
            with self.subTest(kind):
                ran = run_traced("--watch-nothing", self.program(PRELUDE + text))
                self.assertEqual((ran.returncode, ran.stderr.count("left at the end")), (0, 0), ran.stderr)

    def test_all_of_it_is_one_line(self) -> None:
        text = "".join("with concurrent.futures.ThreadPoolExecutor(1) as pool: pool.submit(int)\n" for _ in range(7))
        for words in ((), ("--runs", "2")):
            ran = run_traced("--watch-nothing", *words, self.program(PRELUDE + text))
            told = re.findall("^itc_trace: left at the end: (.*)$", ran.stderr, re.M)
            self.assertEqual([one.count("a future whose result nobody takes") for one in told], [5], ran.stderr)
            self.assertTrue(told[0].endswith("; and 2 more"), told)


if __name__ == "__main__":
    unittest.main()
