"""Programs that hang: what each task waits for, and what becomes of a program that is ended after its time."""

from __future__ import annotations

import asyncio
import gc
import json
import os
import re
import signal
import subprocess
import sys
import tempfile
import threading
import time
import unittest
import weakref
from concurrent.futures import ThreadPoolExecutor
from itertools import chain, repeat
from pathlib import Path
from types import SimpleNamespace
from typing import Any

from itc_trace import Verdict, tracing
from itc_trace.model.lines import Line, state
from itc_trace.model.lock_identity import LockIdentity
from itc_trace.processes import between, hanging
from itc_trace.processes.waits import Since, Wait, cycle_of, name_of, waits
from itc_trace.record import plain

from .support import PACKAGE, PROGRAM_RUNS, ProgramCase, Step, fresh_tenant, in_turn, run_traced, wait_until

ANSWER = 10.0
"""So many seconds an answer may take on a busy machine. On an idle one it takes less than one."""
LOOKS = 10000
"""With a frame held meanwhile, some ten of these keep what goes beyond its end."""
PRELUDE = """
import asyncio, concurrent.futures, ctypes, multiprocessing, os, queue, subprocess, threading, time
def start(work):
    thread = threading.Thread(target=work)
    thread.start()
    return thread
def held(lock):
    lock.acquire()  # held
    time.sleep(1000)
print("begun", flush=True)
"""
KINDS = {
    "lock": ("""
lock = threading.Lock()
start(lambda: held(lock))
time.sleep(0.2)
lock.acquire()  # here
""", r"root waits for lock \(.*\) for .* s at .*# here\n *lambda_1 holds it, acquired at .*# held"),
    "RLock": ("""
guard = threading.RLock()
start(lambda: held(guard))
time.sleep(0.2)
with guard:  # here
    pass
""", r"root waits for lock guard \(.*\) for .* s at .*# here\n *lambda_1 holds it, acquired at .*# held"),
    "condition": ("""
ready = threading.Condition()
with ready:
    ready.wait()  # here
""", r"root waits for (a condition|lock ready .*) for .* s at .*# here"),
    "event": ("""
threading.Event().wait()  # here
""", r"root waits for an event for .* s at .*# here"),
    "queue get": ("""
queue.Queue().get()  # here
""", r"root waits for an item of a queue for .* s at .*# here"),
    "queue put": ("""
items = queue.Queue(1)
items.put(1)
items.put(2)  # here
""", r"root waits for room in a queue for .* s at .*# here"),
    "join": ("""
thread = start(lambda: time.sleep(1000))
thread.join()  # here
""", r"root waits for the end of thread lambda_1 for .* s at .*# here"),
    "future": ("""
concurrent.futures.Future().result()  # here
""", r"root waits for the result of a future for .* s at .*# here"),
    "semaphore": ("""
permits = threading.Semaphore(0)
permits.acquire()  # here
""", r"root waits for a permit of a semaphore for .* s at .*# here"),
    "barrier": ("""
threading.Barrier(2).wait()  # here
""", r"root waits for others at a barrier for .* s at .*# here"),
    "asyncio lock": ("""
async def main():
    lock = asyncio.Lock()
    async def hold():
        async with lock:  # held
            await asyncio.sleep(1000)
    task = asyncio.create_task(hold())
    await asyncio.sleep(0)
    async with lock:  # here
        pass
asyncio.run(main())
""", r"main_1 waits for lock .* at .*# here\n *hold_1 holds it, acquired at .*# held"),
    "asyncio queue": ("""
async def main():
    await asyncio.Queue().get()  # here
asyncio.run(main())
""", r"main_1 waits for an item of a queue for .* s at .*# here"),
    "asyncio future": ("""
async def main():
    await asyncio.get_running_loop().create_future()  # here
asyncio.run(main())
""", r"main_1 waits for a future for .* s at .*# here"),
    "process": ("""
child = multiprocessing.get_context("fork").Process(target=time.sleep, args=(1000,), daemon=True)
child.start()
child.join()  # here
""", r"root waits for the end of process ForkProcess-1 for .* s at .*# here"),
    "lock in a child process": ("""
context = multiprocessing.get_context("fork")
shared_lock = context.Lock()
def work():
    with shared_lock:  # there
        pass
shared_lock.acquire()
child = context.Process(target=work, daemon=True)
child.start()
child.join()  # here
""", r"process work_1 has 1 task:\n *work_1 waits for shared_lock \(.*\) for .* s at .*# there\n *no task of this process"),
    "locks of two child processes": ("""
context = multiprocessing.get_context("fork")
one_lock = context.Lock()
other_lock = context.Lock()
def work(*locks):
    with locks[0]:  # held
        time.sleep(0.5)
        with locks[1]:  # there
            pass
children = [context.Process(target=work, args=order) for order in ((one_lock, other_lock), (other_lock, one_lock))]
for child in children:
    child.start()
for child in children:
    child.join()
""", r"waits for other_lock .*\n *work_\d+ of another process holds it, acquired at .*# held\n *work_\d+ holds one_lock \(.*# held"),
    "child process": ("""
if not (child := os.fork()):
    time.sleep(1000)
os.waitpid(child, 0)  # here
""", r"root waits for the end of a child process for .* s at .*# here"),
    "command": ("""
subprocess.run(["sleep", "1000"])  # here
""", r"root waits for the end of process \d+ for .* s at .*# here"),
    "several futures": ("""
concurrent.futures.wait([concurrent.futures.Future()])  # here
""", r"root waits for the results of futures for .* s at .*# here"),
    "import": ("""
with open(os.path.join(os.path.dirname(__file__), "hanging_module.py"), "w") as module:
    module.write("import time; time.sleep(1000)")
start(lambda: __import__("hanging_module"))
time.sleep(0.3)
import hanging_module  # here
""", r"root waits for the import of hanging_module for .* s at .*# here"),
    "loop of Python": ("""
number = 0
while True: number += 1  # here
""", r"root runs at .*# here"),
    "pipe": ("""
one, other = multiprocessing.Pipe()
one.recv()  # here
""", r"root waits for a pipe for .* s at .*# here"),
    "code of C": ("""
ctypes.CDLL(None).sleep(1000)  # here
""", r"root is in code of C, or waits there, for .* s at .*# here"),
    "code of C that keeps all threads": ("""
while True:  # The signal ends a sleep.
    ctypes.PyDLL(None).sleep(1000)  # here
""", r"the program does not answer: code of C keeps all its threads from going on, called at .*program.py:\d+ in <module>"),
}


class Hanging(ProgramCase):
    def asked(self, text: str, program: Path, pattern: str) -> str:
        """What the program writes once it is asked by a signal. Then it still runs, and is killed."""
        program.write_text(PRELUDE + text)
        words = [sys.executable, "-m", "itc_trace", "run", os.fspath(program)]
        environment = {**os.environ, "PYTHONPATH": os.fspath(PACKAGE)}
        told = program.with_suffix(".told")
        with open(told, "wb") as output, subprocess.Popen(
            words, env=environment, stderr=output, stdout=output, start_new_session=True,
        ) as ran:
            try:
                wait_until(lambda: "begun" in told.read_text())
                time.sleep(1)
                end = time.monotonic() + ANSWER
                while not re.search(pattern, told.read_text()) and time.monotonic() < end:
                    os.kill(ran.pid, signal.SIGQUIT)
                    time.sleep(1.5)
                self.assertIsNone(ran.poll(), "it goes on")
            finally:
                os.killpg(ran.pid, signal.SIGKILL)
        return told.read_text()

    def test_each_kind_says_what_is_waited_for_and_where(self) -> None:
        with tempfile.TemporaryDirectory() as folder, ThreadPoolExecutor(6) as pool:
            told = {}
            for number in range(PROGRAM_RUNS):
                for kind, (text, pattern) in KINDS.items():
                    place = Path(folder, f"{kind} {number}".replace(" ", "_"))
                    place.mkdir()
                    told[kind, number] = pool.submit(self.asked, text, place / "program.py", pattern)
            for (kind, number), answer in told.items():
                with self.subTest(kind, number=number):
                    self.assertRegex(answer.result(), KINDS[kind][1])


CYCLE = """
import threading, time
one_lock = threading.Lock(); other_lock = threading.Lock()
def forth():
    with one_lock:  # holds
        time.sleep(0.3)
        with other_lock:  # wants
            pass
def back():
    with other_lock:  # holds
        time.sleep(0.3)
        with one_lock:  # wants
            pass
threads = [threading.Thread(target=work) for work in (forth, back)]
for thread in threads:
    thread.start()
for thread in threads:
    thread.join()
"""
LUCKY = CYCLE.replace("time.sleep(0.3)", "pass").replace("thread.start()", "thread.start(); time.sleep(0.3)")
ORDERED = LUCKY.replace("thread.start();", "thread.start(); thread.join();")
RACY = """
import threading
stock = {"left": 2}
def sell():
    stock["left"] -= 1
threads = [threading.Thread(target=sell) for _ in range(2)]
for thread in threads:
    thread.start()
for thread in threads:
    thread.join()
threading.Event().wait()
"""


class Children(ProgramCase):
    def test_one_that_begins_behind_a_question_does_not_answer(self) -> None:
        ran = run_traced(self.program("""
import os, signal, time
def work(seconds):
    time.sleep(seconds)
    os._exit(0)
if not (early := os.fork()):
    work(3)
time.sleep(0.5)
os.kill(os.getpid(), signal.SIGQUIT)
time.sleep(1)
if not (late := os.fork()):
    work(1)
os.waitpid(late, 0)
os.waitpid(early, 0)
"""))
        self.assertEqual(ran.returncode, 0, ran.stderr)
        told = re.findall("its beginning (.*) has", ran.stderr)
        self.assertEqual(sorted(told), ["process child_1", "the program"], ran.stderr)

    def test_those_of_a_program_that_is_ended_after_its_time_are_ended_too(self) -> None:
        program = self.program("""
import os, signal, subprocess, sys, time
if sys.argv[1:]:
    signal.signal(signal.SIGTERM, signal.SIG_IGN)
    time.sleep(1000)
stubborn = subprocess.Popen([sys.executable, __file__, "stubborn"])
if not (child := os.fork()):
    if not (grandchild := os.fork()):
        time.sleep(1000)
    with open(__file__ + ".told", "w") as told:
        told.write(f"{os.getpid()} {grandchild} {stubborn.pid}")
    os.waitpid(grandchild, 0)
os.waitpid(child, 0)
""")
        ran = run_traced("--timeout", "4", program)
        self.assertEqual(ran.returncode, Verdict.INCOMPLETE, ran.stderr)
        left = [number for number in Path(f"{program}.told").read_text().split() if self.runs(number)]
        for number in left:
            os.kill(int(number), signal.SIGKILL)
        self.assertEqual(left, [])

    @staticmethod
    def runs(process: str) -> bool:
        """Whether it is there, and not only its status, which nobody asks for."""
        try:
            return Path(f"/proc/{process}/stat").read_text().rpartition(")")[2].split()[0] != "Z"
        except OSError:
            return False

    def test_a_handler_of_the_program_holds_in_its_children(self) -> None:
        ran = run_traced(self.program("""
import faulthandler, os, signal, time
with open(__file__ + ".told", "wb") as told:
    faulthandler.register(signal.SIGUSR1, told)
    if not (child := os.fork()):
        time.sleep(0.5)
        os.kill(os.getpid(), signal.SIGUSR1)
        os._exit(0)
    os.waitpid(child, 0)
with open(__file__ + ".told") as told:
    print("most recent call" in told.read())
"""))
        self.assertEqual((ran.returncode, ran.stdout), (0, "True\n"), ran.stderr)
        self.assertNotIn("its beginning", ran.stderr)

    def test_a_program_that_it_runs_may_be_ended_by_a_signal(self) -> None:
        ran = run_traced(self.program("""
import signal, subprocess, sys, time
if sys.argv[1:]:
    print("begun", flush=True)
    time.sleep(1000)
child = subprocess.Popen([sys.executable, __file__, "child"], stdout=subprocess.PIPE)
child.stdout.readline()
child.send_signal(signal.SIGUSR1)
try:
    print(child.wait(20) == -signal.SIGUSR1)
finally:
    child.kill()
"""))
        self.assertEqual(ran.stdout, "True\n", ran.stderr)


CROSSED = """
import multiprocessing, time
def work(first, second):
    with first:  # holds
        time.sleep(1)
        with second:  # wants
            pass
if __name__ == "__main__":
    context = multiprocessing.get_context("fork")
    one_lock = context.Lock()
    other_lock = context.Lock()
    children = [context.Process(target=work, args=order) for order in ((one_lock, other_lock), (other_lock, one_lock))]
    for child in children:
        child.start()
    for child in children:
        child.join()
"""
PARENT = """
import multiprocessing
def work(lock):
    with lock:  # wants
        pass
if __name__ == "__main__":
    context = multiprocessing.get_context("fork")
    shared_lock = context.BoundedSemaphore(1)
    with shared_lock:  # holds
        child = context.Process(target=work, args=(shared_lock,))
        child.start()
        child.join()  # wants
"""
BY_THREADS = """
import multiprocessing, threading, time
def work(inner, first, second):
    def other():
        with second:  # holds
            time.sleep(1)
            with inner:  # wants
                pass
    with inner:  # holds
        threading.Thread(target=other).start()
        time.sleep(1)
        with first:  # wants
            pass
context = multiprocessing.get_context("fork")
one_lock, other_lock = context.Lock(), context.RLock()
for locks in ((one_lock, other_lock), (other_lock, one_lock)):
    context.Process(target=work, args=(threading.Lock(), *locks)).start()
"""
NOT_CLOSED = {
    "one order": """
def work(number, one, other):
    for _ in range(2):
        with one:
            time.sleep(1.3)
            with other:
                pass
""",
    "a way back": """
def work(number, one, other):
    first, second = (one, other) if number else (other, one)
    with first:
        time.sleep(0.5)
        if second.acquire(timeout=3):
            second.release()
""",
    "one that is let go": """
def work(number, one, other):
    if number:
        with one:
            time.sleep(2)
        with other:
            pass
    else:
        with other:
            time.sleep(0.5)
            with one:
                pass
""",
}


class Between(ProgramCase):
    """Cycles that tasks of several processes have closed."""

    def assert_told(self, text: str, holds: int, wants: int) -> str:
        ran = run_traced("--watch-nothing", "--timeout", "8", self.program(text))
        self.assertEqual(ran.returncode, Verdict.RACES, ran.stderr)
        self.assertIn("itc_trace: tasks of several processes wait for each other, ", ran.stderr)
        listed = ran.stderr[ran.stderr.index("itc_trace: deadlock on "):]
        self.assertEqual((listed.count("# holds\n"), listed.count("# wants\n")), (holds, wants), ran.stderr)
        self.assertIn("; 1 deadlock: ", listed)
        return ran.stderr

    def test_two_children_that_hold_what_the_other_one_wants(self) -> None:
        for make in ("Lock()", "Semaphore(1)"):
            with self.subTest(make):
                told = self.assert_told(CROSSED.replace("Lock()", make), 2, 2)
                self.assertRegex(told, r"a cycle: (work_1 waits for work_2, work_2|work_2 waits for work_1, work_1) waits")
                self.assertRegex(told, r"work_1 holds (semaphore )?one_lock .*# holds\n *work_1 wants (semaphore )?other_lock .*# wants")

    def test_a_parent_that_waits_for_the_end_of_who_wants_its_lock(self) -> None:
        told = self.assert_told(PARENT, 1, 2)
        self.assertRegex(told, "a cycle: (root waits for work_1, work_1|work_1 waits for root, root) waits")

    def test_threads_of_two_processes_also_as_nobody_joins_these(self) -> None:
        self.assert_told(BY_THREADS, 4, 4)

    def test_what_goes_on_is_none(self) -> None:
        begin = "import multiprocessing, time\n"
        end = """
context = multiprocessing.get_context("fork")
locks = [context.Lock() for _ in range(2)]
children = [context.Process(target=work, args=(number, *locks)) for number in range(2)]
for child in children:
    child.start()
for child in children:
    child.join()
"""
        for name, work in NOT_CLOSED.items():
            with self.subTest(name):
                ran = run_traced("--watch-nothing", "--timeout", "100", self.program(begin + work + end))
                self.assertEqual(ran.returncode, 0, ran.stderr)
                self.assertNotRegex(ran.stderr, "deadlock|wait for each other")


class Told(unittest.TestCase):
    """What processes tell is one cycle only if all of it holds at one time."""

    @staticmethod
    def told(begin: float, until: float, task: str, holds: str, wants: str, signals: list[str]) -> between.Told:
        at = ("shop.py", 1, "work")
        held = {holds: between.Holding(holds, at, "shop.py:1")}
        waiting = between.Waiting(task, f"{task} waits", wants, at, across=wants, holds=held)
        return between.Told(begin, until, signals, [waiting])

    def test_times_signals_and_holders_decide(self) -> None:
        def cycle(begin: float = 2.0, holds: str = "y", signals: tuple[str, ...] = (), more: str = "") -> list[str]:
            told = [self.told(1.0, 3.0, "a", "x", "y", []), self.told(begin, begin + 2, "b", holds, "x", [*signals])]
            told += [self.told(2.0, 3.0, "c", more, "z", [])] if more else []
            return sorted(one.task for one in between.cycle_between(told))

        self.assertEqual(cycle(), ["a", "b"])
        self.assertEqual(cycle(more="w"), ["a", "b"])
        self.assertEqual(cycle(begin=3.5), [], "the first one may have gone on before the second one waited")
        self.assertEqual(cycle(holds="z"), [])
        self.assertEqual(cycle(signals=("y",)), [], "somebody else may release it")
        self.assertEqual(cycle(more="y"), [], "one of both does not hold it any more")

    def test_what_was_acquired_meanwhile_is_told_no_longer(self) -> None:
        with tempfile.TemporaryDirectory() as folder:
            asked, lock, own = os.path.join(folder, "asked"), LockIdentity("Lock", None), between.Own()
            lock.across, line = "across64", Line(None, "work")
            wait = Wait("work", "waits for lock", "shop.py:1", line=line, lock=lock, lasts=True)
            own.look_at([wait])
            own.write(asked)
            first, = between.told_by_all(asked)
            own.write(asked)
            again, = between.told_by_all(asked)
            self.assertGreater(again.until, first.until)
            self.assertEqual((again.begin, again.waits), (first.begin, first.waits))
            lock.times += 1
            own.write(asked)
            self.assertEqual(between.told_by_all(asked), [])
            wait.lasts = False
            own.look_at([wait])
            own.write(asked)
            self.assertEqual(between.told_by_all(asked), [])


class GoesOn(unittest.TestCase):
    """Tasks that are all seen as they wait may go on all the time: that nobody does is said once nothing comes of it."""

    def setUp(self) -> None:
        for name, value in (
            ("LOOK", 0.001), ("waits", lambda since: self.waits()), ("_handles_signals", lambda: False),
            ("_say", hanging._say),
        ):
            self.addCleanup(setattr, hanging, name, getattr(hanging, name))
            setattr(hanging, name, value)
        self.addCleanup(setattr, state, "tracer", state.tracer)
        self.places = {1: 1.0, 2: 1.0}
        self.tasks = iter([])  # type: ignore[var-annotated]
        with tempfile.NamedTemporaryFile(delete=False) as asked:
            self.asked = asked.name
        self.addCleanup(os.remove, self.asked)
        self.hanging = hanging.Hanging(self.asked, print, None)
        self.hanging._since = SimpleNamespace(look=lambda: self.places)  # type: ignore[assignment]

    def waits(self, since: float = 1.0) -> list[Wait]:
        return [Wait(task, "waits for lock (a.py:1)", "a.py:2", next(self.tasks, since)) for task in ("one", "two")]

    def nobody_goes_on(self, *reported: int | None) -> bool:
        """With so many notes reported at each look, and then always as many as at the last one."""
        told = chain(reported, repeat(reported[-1]))
        state.tracer = type("", (), {"reported": property(lambda one: next(told))})()
        self.hanging._stuck = frozenset({(1, 1.0)})
        return self.hanging._nobody_goes_on(self.waits())

    def test_where_nothing_comes_nobody_goes_on(self) -> None:
        self.assertTrue(self.nobody_goes_on(7))
        self.assertTrue(self.hanging._stuck)

    def test_who_notes_something_goes_on_and_is_looked_at_again(self) -> None:
        for reported in ((None,), (7, 8), (*[7] * 9, None), (*[7] * 10, 8)):
            self.assertFalse(self.nobody_goes_on(*reported), reported)
            self.assertFalse(self.hanging._stuck)

    def test_who_is_elsewhere_goes_on(self) -> None:
        looks = iter([self.places, self.places, {1: 1.0, 2: 2.0}])
        self.hanging._since = SimpleNamespace(look=lambda: next(looks))  # type: ignore[assignment]
        self.assertFalse(self.nobody_goes_on(7))

    def test_who_waits_for_something_else_goes_on(self) -> None:
        self.tasks = iter([1.0, 1.0, 1.0, 2.0])
        self.assertFalse(self.nobody_goes_on(7))

    def test_who_asks_is_answered_at_once(self) -> None:
        self.hanging._size = -1
        self.assertFalse(self.nobody_goes_on(7))

    def test_a_cycle_that_one_look_alone_has_seen_is_not_told(self) -> None:
        """A thread that has just acquired a lock may be seen as it waits for it."""
        lines = Line(None, "one"), Line(None, "two")
        cycle = [
            Wait(name_of(line), "waits for lock", "a.py:2", 1.0, line, lines[not at], LockIdentity("Lock", None), lasts=True)
            for at, line in enumerate(lines)
        ]
        for later, times in (([], 0), (cycle, 1)):
            said: list[object] = []
            looks = chain([cycle], repeat(later))
            hanging.waits = lambda since: next(looks)  # type: ignore[assignment]
            hanging._say = said.append  # type: ignore[assignment]
            self.hanging._write = said.append
            state.tracer = SimpleNamespace(reported=None)  # type: ignore[assignment]
            self.hanging._look_whether_stuck()
            self.assertEqual(len(said), 2 * times, said)


class Ended(ProgramCase):
    def test_a_program_is_ended_after_its_time(self) -> None:
        ran = run_traced("--timeout", "4", self.program("import threading\nthreading.Event().wait()\n"))
        self.assertEqual(ran.returncode, Verdict.INCOMPLETE, ran.stderr)
        self.assertIn("itc_trace: incomplete: the program was ended after 4 s\n", ran.stderr)
        self.assertRegex(ran.stderr, r"root waits for an event .*at .*program.py:2:  threading.Event\(\).wait\(\)")
        self.assertIn("nobody goes on, as each waits for what only they could give: 1 task:", ran.stderr)

    def test_it_is_told_once_that_nobody_goes_on(self) -> None:
        ran = run_traced("--timeout", "5", self.program("""
import queue, threading, time
lock, items = threading.Lock(), queue.Queue()
def late():
    time.sleep(0.3)
    with lock:
        items.put(1)
threading.Thread(target=late).start()
with lock:
    items.get()
"""))
        self.assertEqual(ran.stderr.count("nobody goes on"), 1, ran.stderr)

    def test_a_signal_or_another_process_may_end_a_wait(self) -> None:
        for waits in (
            "signal.signal(signal.SIGUSR2, lambda *_: is_over.set())\nis_over.wait()",
            "lock = multiprocessing.get_context('fork').Lock()\nlock.acquire()\nlock.acquire()",
        ):
            imports = "import multiprocessing, signal, threading\nis_over = threading.Event()\n"
            ran = run_traced("--timeout", "4", self.program(imports + waits))
            self.assertEqual(ran.returncode, Verdict.INCOMPLETE, ran.stderr)
            self.assertRegex(ran.stderr, r"root waits for (an event|lock) ")
            self.assertNotIn("nobody goes on", ran.stderr)

    def test_one_that_ignores_the_signal_is_killed(self) -> None:
        ran = run_traced("--timeout", "1", self.program("""
import signal, threading
signal.signal(signal.SIGTERM, signal.SIG_IGN)
threading.Event().wait()
"""))
        self.assertEqual(ran.returncode, Verdict.INCOMPLETE, ran.stderr)
        self.assertIn("itc_trace: incomplete: the program was ended after 1 s\n", ran.stderr)

    def test_its_races_are_listed(self) -> None:
        ran = run_traced("--timeout", "4", self.program(RACY))
        self.assertEqual(ran.returncode, Verdict.RACES, ran.stderr)
        self.assertIn("itc_trace: race on stock['left']", ran.stderr)
        self.assertIn("incomplete: the program was ended after 4 s", ran.stderr)

    def test_one_that_ends_before_is_as_ever(self) -> None:
        ran = run_traced("--timeout", "100", self.program("print(1)\n"))
        self.assertEqual((ran.returncode, ran.stdout), (0, "1\n"), ran.stderr)

    def test_a_cycle_that_has_closed_is_a_deadlock(self) -> None:
        ran = run_traced("--timeout", "5", self.program(CYCLE))
        self.assertEqual(ran.returncode, Verdict.RACES, ran.stderr)
        self.assertRegex(ran.stderr, r"a cycle: (forth_1 waits for back_1, back|back_1 waits for forth_1, forth)_1 waits")
        listed = ran.stderr[ran.stderr.index("itc_trace: deadlock on "):]
        self.assertRegex(listed, r"forth_1 holds one_lock +at .*program.py:5 in forth:  with one_lock:  # holds\n")
        self.assertRegex(listed, r"forth_1 wants other_lock at .*program.py:7 in forth:  with other_lock:  # wants\n")
        self.assertRegex(listed, r"back_1 +holds other_lock at .*program.py:10 in back:  with other_lock:  # holds\n")
        self.assertRegex(listed, r"back_1 +wants one_lock +at .*program.py:12 in back:  with one_lock:  # wants\n")
        self.assertIn("; 1 deadlock: ", listed)

    def test_what_is_no_time_is_refused(self) -> None:
        for word in ("0", "-1", "nan", "inf", "soon", ""):
            ran = run_traced("--timeout", word, self.program("print(1)\n"))
            self.assertEqual(ran.returncode, 2, word)
            self.assertIn("is no number of seconds", ran.stderr)


_IN_A_LOOP = """
import asyncio

async def cross(first, second):
    async with first:
        async with second:
            pass

async def main():
    one, other = asyncio.{kind}(), asyncio.{kind}()
    await asyncio.gather(cross(one, other), cross(other, one))

asyncio.run(main())
"""

CROSSED_KINDS = {
    "locks of asyncio": _IN_A_LOOP.format(kind="Lock"),
    "permits of asyncio": _IN_A_LOOP.format(kind="Semaphore"),
    "conditions of asyncio": _IN_A_LOOP.format(kind="Condition"),
    "permits": """
import threading, time
one, other = threading.Semaphore(), threading.BoundedSemaphore(1)

def cross(first, second):
    with first:
        second.acquire()
        second.release()

threads = [threading.Thread(target=cross, args=both) for both in ((one, other), (other, one))]
for thread in threads:
    thread.start()
    time.sleep(0.3)
for thread in threads:
    thread.join()
""",
}
"""Programs whose locks of some kind are acquired in orders that make a cycle, which does not close by itself."""


class Confirmed(ProgramCase):
    def test_a_possible_deadlock_that_closes_ends_the_run(self) -> None:
        for _ in range(PROGRAM_RUNS):
            ran = run_traced("--confirm", self.program(LUCKY))
            self.assertEqual(ran.returncode, Verdict.RACES, ran.stderr)
            self.assertIn("itc_trace: confirmed deadlock on one_lock and other_lock", ran.stderr)
            self.assertIn("each waits for the next one", ran.stderr)
            self.assertRegex(ran.stderr.splitlines()[-1], "no race in this run; 1 deadlock: ")

    def test_each_kind_of_lock_is_tried(self) -> None:
        for kind, program in CROSSED_KINDS.items():
            with self.subTest(kind):
                ran = run_traced("--confirm", self.program(program))
                self.assertEqual(ran.returncode, Verdict.RACES, ran.stderr)
                self.assertIn("itc_trace: confirmed deadlock on ", ran.stderr)

    def test_steps_at_the_same_lines_close_at_once(self) -> None:
        """Each of five tasks has the next one's inner lock. Held at one step after another they would take ten seconds."""
        ran = run_traced("--confirm", self.program("""
import threading, time
locks = [threading.Lock() for _ in range(5)]
def step(number):
    time.sleep(0.1 * number)
    with locks[number]:
        with locks[(number + 1) % 5]:
            with open(__file__ + ".told", "a") as told:
                told.write("well")
threads = [threading.Thread(target=step, args=(number,)) for number in range(5)]
for thread in threads:
    thread.start()
for thread in threads:
    thread.join()
"""))
        self.assertEqual(ran.returncode, Verdict.RACES, ran.stderr)
        self.assertIn("itc_trace: confirmed deadlock on ", ran.stderr)
        waited = [float(one) for one in re.findall(r"waits for the end of thread step_1 for ([\d.]+) s", ran.stderr)]
        self.assertTrue(waited and max(waited) < 5, ran.stderr)

    def test_several_runs_are_followed_by_one_that_tries(self) -> None:
        ran = run_traced("--confirm", "--runs", "2", "--no-shake", self.program(LUCKY))
        self.assertEqual(ran.returncode, Verdict.RACES, ran.stderr)
        self.assertEqual(ran.stderr.count("itc_trace: --confirm runs the program again"), 1, ran.stderr)
        self.assertIn("itc_trace: confirmed deadlock on one_lock and other_lock", ran.stderr)
        self.assertEqual(ran.stderr.splitlines()[-1], "itc_trace: no race in 2 runs; 1 deadlock")

    def test_each_format_says_that_it_is_confirmed(self) -> None:
        program = self.program(LUCKY)
        drawing, *files = (os.path.join(os.path.dirname(program), name) for name in ("draw", "found.json", "found.sarif", "rows"))
        Path(drawing).write_text('#!/bin/sh\nfor word; do last=$word; done\ncat "$last"\n')  # The rows are its last word.
        os.chmod(drawing, 0o700)
        ran = run_traced(
            "--confirm", "--json", files[0], "--sarif", files[1], "--picture", files[2], "--github", program, ITC_PICTURE=drawing,
        )
        self.assertEqual(ran.returncode, Verdict.RACES, ran.stderr)
        told, log, rows = (Path(file).read_text(encoding="utf-8") for file in files)
        finding, = json.loads(told)["findings"]
        self.assertEqual((finding["kind"], finding["possible"], finding["confirmed"]), ("deadlock", False, True))
        result, = json.loads(log)["runs"][0]["results"]
        self.assertEqual((result["ruleId"], result["level"], result["properties"]), ("deadlock", "error", {"confirmed": True}))
        self.assertRegex(ran.stdout, r"\A::error file=[^,]+,line=5,title=itc-trace \w+::confirmed deadlock on one_lock")
        self.assertEqual([json.loads(row).get("confirmed") for row in rows.splitlines()], [None, True])

    def test_the_picture_of_each_of_several_runs_says_that_it_is_confirmed(self) -> None:
        program = self.program(LUCKY)
        drawing, rows = (os.path.join(os.path.dirname(program), name) for name in ("draw", "rows"))
        Path(drawing).write_text('#!/bin/sh\nfor word; do last=$word; done\ncat > /dev/null\ncat "$last"\n')
        os.chmod(drawing, 0o700)
        ran = run_traced("--confirm", "--runs", "2", "--no-shake", "--picture", rows, program, ITC_PICTURE=drawing)
        self.assertEqual(ran.returncode, Verdict.RACES, ran.stderr)
        for number in (1, 2):
            told = Path(f"{rows}.{number}").read_text(encoding="utf-8").splitlines()
            self.assertEqual([json.loads(row).get("confirmed") for row in told], [None, True], told)

    def test_without_it_the_deadlock_is_possible(self) -> None:
        ran = run_traced(self.program(LUCKY))
        self.assertEqual(ran.returncode, 0, ran.stderr)
        self.assertIn("itc_trace: possible deadlock on one_lock and other_lock", ran.stderr)

    def test_one_in_order_is_not_tried(self) -> None:
        ran = run_traced("--confirm", self.program(ORDERED))
        self.assertEqual(ran.returncode, 0, ran.stderr)
        self.assertNotIn("--confirm runs", ran.stderr)



class Looks(unittest.TestCase):
    def test_nothing_lives_longer_since_somebody_looks_where_threads_are(self) -> None:
        log: list[str] = []
        late = []
        is_over = threading.Event()

        class Noted:
            def __del__(self) -> None:
                log.append("gone")

        def holding() -> int:
            kept = [Noted()]
            return len(kept)

        def work() -> None:
            while not is_over.is_set():
                log.clear()
                holding()
                if not log:
                    late.append(1)

        thread = threading.Thread(target=work)
        thread.start()
        before = sys.getswitchinterval()
        sys.setswitchinterval(1e-6)
        try:
            since = Since()
            for _ in range(LOOKS):
                since.look()
        finally:
            sys.setswitchinterval(before)
            is_over.set()
            thread.join()
        self.assertEqual(late, [])

    def test_who_is_held_back_as_it_notes_a_lock_does_not_wait_for_that(self) -> None:
        for method in ("acquire", "release"):
            port, tenant = fresh_tenant()
            with self.subTest(method), tracing(port=port, tenant=tenant):
                lock, go_on, door, held = threading.Lock(), Step(), plain.allocate_lock(), set[int]()
                if method == "acquire":
                    in_turn(lambda lock=lock: (lock.acquire(), lock.release()))  # type: ignore[misc]

                def work(method: str = method, lock: Any = lock, go_on: Step = go_on, held: Any = held) -> None:
                    if method == "release":
                        lock.acquire()
                    go_on.wait()
                    held.add(threading.get_ident())
                    getattr(lock, method)()

                thread, note = threading.Thread(target=work), state.note
                thread.start()
                door.acquire()
                own = {"__name__": "itc_trace", "held": held, "door": door, "note": note, "me": threading.get_ident}
                exec("def hold_back(one):\n    me() in held and door.acquire()\n    note(one)", own)
                state.note = own["hold_back"]
                try:
                    go_on.done()
                    wait_until(lambda held=held: held)  # type: ignore[misc]
                    time.sleep(0.5)
                    found = waits(Since())
                finally:
                    state.note = note
                    door.release()
                    thread.join()
                self.assertEqual([one.what for one in found if ".work" in one.place], ["runs"])
                self.assertEqual(cycle_of(found), [])

    def test_tasks_that_were_looked_at_are_let_go_once_they_are_over(self) -> None:
        since, kept = Since(), []

        def look_at_all(tasks: int) -> None:
            wait_until(lambda: len(waits(since)) > tasks)

        async def look() -> None:
            over = asyncio.Event()
            tasks = [asyncio.create_task(over.wait()) for _ in range(3)]
            kept.extend(map(weakref.ref, tasks))
            await asyncio.to_thread(look_at_all, len(tasks))
            over.set()
            await asyncio.gather(*tasks)

        asyncio.run(look())
        gc.collect()
        self.assertEqual([task() for task in kept], [None] * 3)
        since.look()
        self.assertFalse([one for one in since._seen if not isinstance(one, int)])


if __name__ == "__main__":
    unittest.main()
