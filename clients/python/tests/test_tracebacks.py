"""Tracebacks that a program shows are as untraced: no function that stands in the place of the library's is in them."""

from __future__ import annotations

import re
import unittest

from .same import FORMS
from .support import ProgramCase, run_python, run_traced

CALLS_THAT_FAIL = r'''
import asyncio, queue, subprocess, sys, threading, traceback, concurrent.futures, os, heapq, importlib, multiprocessing, logging
def bad(): raise ValueError("x")
async def failing(): bad()
async def gathers(): await asyncio.gather(failing())
async def waits(): await asyncio.wait_for(asyncio.create_task(failing()), 5)
async def group():
    async with asyncio.TaskGroup() as g: g.create_task(failing())
async def queues(): asyncio.Queue().get_nowait()
def pooled(): concurrent.futures.ThreadPoolExecutor(1).submit(bad).result()
def mapped(): list(concurrent.futures.ThreadPoolExecutor(1).map(lambda n: bad(), [1]))
def waited(): concurrent.futures.Future().result(0.01)
def called():
    f = concurrent.futures.Future(); f.add_done_callback(lambda f: bad()); f.set_result(1)
def setter():
    f = concurrent.futures.Future(); f.set_result(1); f.set_result(2)
class Odd:
    def __lt__(self, other): bad()
CALLS = [
    threading.Thread(target=print).join,
    lambda: threading.Lock().release(),
    lambda: threading.RLock().release(),
    lambda: threading.Condition().wait(),
    lambda: threading.Condition().notify(),
    lambda: threading.BoundedSemaphore(1).release(),
    lambda: threading.Semaphore(-1),
    lambda: threading.Barrier(2).wait(0.01),
    lambda: queue.Queue().get(False),
    lambda: queue.Queue(1).task_done(),
    lambda: queue.SimpleQueue().get(False),
    lambda: queue.PriorityQueue().put(1, 2, 3, 4),
    lambda: [q := queue.PriorityQueue(), q.put(Odd()), q.put(Odd())],
    lambda: asyncio.run(failing()),
    lambda: asyncio.run(gathers()),
    lambda: asyncio.run(waits()),
    lambda: asyncio.run(group()),
    lambda: asyncio.run(queues()),
    pooled,
    mapped,
    waited,
    called,
    setter,
    lambda: heapq.heappush([Odd()], Odd()),
    lambda: os.close(-1),
    lambda: subprocess.run(["/nowhere"]),
    lambda: subprocess.run([sys.executable, "-c", "raise SystemExit(3)"], check=True),
    lambda: importlib.import_module("no_such_module_1"),
    lambda: __import__("no_such_module_2"),
    lambda: os.execv("/nowhere", ["a"]),
    lambda: threading.Timer(1, 2).run(),
    lambda: threading.local().x,
    lambda: multiprocessing.Process(target=print).join(),
    lambda: multiprocessing.Queue().get(False),
    lambda: os.waitpid(-1, 0),
    lambda: concurrent.futures.wait([1]),
    lambda: list(concurrent.futures.as_completed([concurrent.futures.Future()], 0.01)),
]
for n, call in enumerate(CALLS):
    print("CALL", n)
    try: call()
    except BaseException: sys.stdout.write(traceback.format_exc())
    sys.stdout.flush()
logging.basicConfig(stream=sys.stdout)
def in_thread():
    try: queue.Queue().get(False)
    except queue.Empty: logging.exception("logged"); traceback.print_stack(file=sys.stdout)
t = threading.Thread(target=in_thread); t.start(); t.join()
sys.stderr = sys.stdout
t = threading.Thread(target=lambda: queue.Queue().get(False)); t.start(); t.join()
threading.Thread.start(threading.current_thread())
'''
ADDRESS = re.compile("0x[0-9a-f]+")


class Tracebacks(ProgramCase):
    def test_what_a_program_shows_of_its_errors_is_as_untraced(self) -> None:
        program = self.program(CALLS_THAT_FAIL)
        plain = ADDRESS.sub("", run_python(program).stdout)
        self.assertEqual(plain.count("CALL "), 37)
        for form, pure in FORMS.items():
            with self.subTest(hooks=form):
                traced = run_traced("--quiet", program, ITC_TRACE_PURE=pure)
                self.assertEqual(ADDRESS.sub("", traced.stdout).splitlines(), plain.splitlines())


if __name__ == "__main__":
    unittest.main()
