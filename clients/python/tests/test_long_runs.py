"""A run that outgrows the limits of a tenant goes on in further parts, and nothing of it is lost."""

from __future__ import annotations

import os
import stat
import tempfile
import unittest
from pathlib import Path

from itc_trace import Verdict
from itc_trace.record.collector import find_program
from itc_trace.record.dividing import Border
from itc_trace.record.journal import Begun, border_row, read_line
from itc_trace.processes.part_collectors import PartCollectors, ask_for_port
from itc_trace.analyse.parts import races_of_parts
from itc_trace.model.verdict import BREAKS_OFF, END_ROW, Cause, Unseen, end_row

from .support import ProgramCase, run_python, run_traced

EVENTS_OF_A_PART = "3"
MOST_TAKEN_ALONG = 640
"""Of a program with a few live tasks: the tracer learns late of those that ended, as of up to some hundred of them."""
ROW = '{"event":1,"task":"root","thing":null,"kind":"local","file":null,"line":0,"label":"touch"}\n'
SERVER = """
import sys, threading
lock, totals = threading.Lock(), {"served": 0, "slow": 0}
def serve(number):
    with lock:
        totals["served"] += 1
    if number % 500 == 251:
        SLOW
for number in range(1, 1501):
    thread = threading.Thread(target=serve, args=(number,), name="request")
    thread.start()
    if number % 10 == 0:
        thread.join()
for thread in threading.enumerate():
    if thread is not threading.current_thread():
        thread.join()
"""
RACING = SERVER.replace("SLOW", 'totals["slow"] += 1')
CLEAN = SERVER.replace("SLOW", "pass")
HANDED_OVER = """
import itc_trace, os, queue, threading
early, ping, pong = queue.Queue(), queue.Queue(), queue.Queue()
end, beginning = os.pipe()
def work():
    itc_trace.touch("handed", write=True)
    early.put(1)
    itc_trace.touch("kept", write=True)
    for _ in range(200):
        ping.get()
        pong.put(1)
def use():
    os.read(end, 1)
    early.get()
    itc_trace.touch("handed", write=True)
    itc_trace.touch("kept", write=True)
worker, user = threading.Thread(target=work), threading.Thread(target=use)
user.start()
worker.start()
for _ in range(200):
    ping.put(1)
    pong.get()
os.write(beginning, b"1")
user.join()
worker.join()
"""

READERS = """
import os, queue, threading
rates, turns, (end, beginning) = {"euro": 1}, {"turn": 0}, os.pipe()
ping, pong = queue.Queue(), queue.Queue()
def look():
    rates["euro"]
    os.write(beginning, b"1")
def answer():
    for _ in range(100):
        ping.get()
        turns["turn"] += 1
        pong.put(1)
first, second, other = threading.Thread(target=look), threading.Thread(target=look), threading.Thread(target=answer)
first.start()
os.read(end, 1)
second.start()
second.join()
other.start()
for _ in range(100):
    turns["turn"] += 1
    ping.put(1)
    pong.get()
rates["euro"] = 2
first.join()
other.join()
"""

LOOP = """
import asyncio
class Counter: pass
counter = Counter()
counter.value = 0
async def add(lock):
    for _ in range(30):
        if lock is not None:
            await lock.acquire()
        value = counter.value
        await asyncio.sleep(0)
        counter.value = value + 1
        if lock is not None:
            lock.release()
        called = asyncio.get_running_loop().create_future()
        asyncio.get_running_loop().call_soon(called.set_result, None)
        await called
async def main():
    await asyncio.gather(*(add(LOCK) for lock in [asyncio.Lock()] for _ in range(8)))
asyncio.run(main())
"""


AWAITED = """
import asyncio, threading
lock, cache = threading.Lock(), {}
async def one(number):
    await asyncio.sleep(0)
    with lock:
        cache[number % 100] = number
async def main():
    for number in range(600):
        AWAIT
asyncio.run(main())
"""
GATHERED = AWAITED.replace("AWAIT", "await asyncio.gather(one(number), one(number))")
IN_GROUPS = AWAITED.replace("AWAIT", """async with asyncio.TaskGroup() as group:
            group.create_task(one(number))
            group.create_task(one(number))""")
CHAIN = """
import asyncio
count = {"steps": 0}
async def step(number, over):
    count["steps"] = number
    await asyncio.sleep(0)
    if number < 900:
        asyncio.current_task().next = asyncio.create_task(step(number + 1, over))
    else:
        over.set_result(None)
async def main():
    over = asyncio.get_running_loop().create_future()
    first = asyncio.create_task(step(0, over))
    del first
    await over
asyncio.run(main())
"""
ASKS_ITSELF = """
import threading, urllib.request
from http.server import BaseHTTPRequestHandler, ThreadingHTTPServer
totals, lock = {"slow": 0, "served": 0}, threading.Lock()
class Handler(BaseHTTPRequestHandler):
    def do_GET(self):
        with lock:
            totals["served"] += 1
        if self.path.endswith("7"):
            totals["slow"] += 1
        self.send_response(200)
        self.end_headers()
        self.wfile.write(b"ok")
    def log_message(self, *words):
        pass
server = ThreadingHTTPServer(("127.0.0.1", 0), Handler)
thread = threading.Thread(target=server.serve_forever, args=(0.01,))
thread.start()
for number in range(30):
    urllib.request.urlopen(f"http://127.0.0.1:{server.server_port}/{number}").read()
    totals["slow"]
server.shutdown()
thread.join()
"""
LINGERING = """
import _thread, threading, time
lock, totals, gate = threading.Lock(), {"served": 0}, _thread.allocate_lock()
class Lingering(threading.Thread):
    def _delete(self):
        while gate.locked():
            time.sleep(0.001)
        super()._delete()
def serve():
    with lock:
        totals["served"] += 1
gate.acquire()
threads = [Lingering(target=serve, name="request") for _ in range(400)]
for thread in threads: thread.start()
def are_served():
    with lock:
        return totals["served"] == 400
while not are_served(): time.sleep(0.05)
gate.release()
for thread in threads: thread.join()
"""
ROWS_THAT_GO = """
import threading, time, _thread
from itc_trace.model import lines
from itc_trace.record import touch_rows
touch_rows.MOST_PRIVATE = 100
class Row:
    def __init__(self):
        self.count = 0
rows = [Row()]
lock = threading.Lock()
done = _thread.allocate_lock()
done.acquire()
def busy():
    while done.locked():
        with lock:
            rows[0].count
        time.sleep(0.0003)
thread = threading.Thread(target=busy)
thread.start()
for _ in range(1500):
    with lock:
        rows[:] = [Row()]
        rows[0].count
    time.sleep(0.001)
print(len(lines.state.tracer._touches.rows._alone))
done.release()
thread.join()
"""
FULL_AT_ITS_END = """
import itc_trace, threading, time
from itc_trace.model import lines
from itc_trace.record import tracer_parts
tracer_parts.Parts.is_full = property(lambda parts: lines.state.tracer is None)
threads = [threading.Thread(target=itc_trace.touch, args=("x", True)) for _ in range(2)]
for thread in threads: thread.start()
for thread in threads: thread.join()
while lines.state.tracer.notes: pass
time.sleep(0.1)
"""


class Orders(unittest.TestCase):
    """Each order that is promised holds across borders, and none more: the tests of these run with a border after a few events."""

    def assert_same_in_parts(self, module: str) -> None:
        ran = run_python("-m", "unittest", f"tests.{module}", ITC_PART_EVENTS=EVENTS_OF_A_PART)
        self.assertRegex(ran.stderr, r"\nOK")

    def test_threads_and_locks(self) -> None:
        self.assert_same_in_parts("test_threads")
        self.assert_same_in_parts("test_locks")

    def test_queues_and_pools(self) -> None:
        self.assert_same_in_parts("test_queues")

    def test_other_orders(self) -> None:
        self.assert_same_in_parts("test_orders")

    def test_loops(self) -> None:
        self.assert_same_in_parts("test_asyncio")

    def test_deadlocks(self) -> None:
        self.assert_same_in_parts("test_deadlocks.Deadlocks")


class Journals(unittest.TestCase):
    """What is not seen is told of a run in parts as of any other."""

    def test_a_journal_that_breaks_off_or_is_damaged_is_no_all_clear(self) -> None:
        module = Unseen(Cause.MODULE, "a module was not watched")
        damaged = Unseen(Cause.JOURNAL, "line 2 of the journal is none")
        lost = Unseen(Cause.JOURNAL, "the journal has 0 lines where 1 were written")
        for rows, unseen in (
            (ROW + END_ROW, []), (ROW, [BREAKS_OFF]), (ROW + END_ROW[:-1], [BREAKS_OFF]), (f"{ROW}none\n{END_ROW}", [damaged]),
            (end_row(1), [lost]), (ROW + end_row(1), []), (ROW + module.row(), [module, BREAKS_OFF]), (ROW + module.row() + END_ROW, [module]),
        ):
            with self.subTest(rows=rows), tempfile.NamedTemporaryFile("w", suffix=".journal") as journal:
                journal.write(rows)
                journal.flush()
                self.assertEqual(races_of_parts(journal.name).unseen, unseen)

    def test_a_part_whose_last_events_the_journal_lacks_is_no_all_clear(self) -> None:
        """As of a process that stops to trace, while other ones go on in further parts."""
        border = Border([], [(7, 1)], [1])
        with tempfile.NamedTemporaryFile("w", suffix=".journal") as journal:
            journal.write(ROW + border_row(2, border) + ROW.replace("{", '{"part":2,', 1) + END_ROW)
            journal.flush()
            (unseen,) = races_of_parts(journal.name).unseen
        self.assertEqual(unseen.cause, Cause.COLLECTOR)
        self.assertIn("it lacks events", unseen.text)


class LongRuns(ProgramCase):
    def test_a_race_between_requests_of_different_parts_is_told(self) -> None:
        ran = run_traced("--part-events", "1000", self.program(RACING))
        self.assertEqual(ran.returncode, Verdict.RACES, ran.stderr)
        self.assertRegex(ran.stderr, r"(?s)race on totals\['slow'\].*nothing orders them; .*as event \d+ of part \d+ and event \d+ of part \d+")
        self.assertNotIn("served", ran.stderr)

    def test_without_the_race_there_is_none(self) -> None:
        ran = run_traced("--part-events", "1000", self.program(CLEAN))
        self.assertEqual(ran.returncode, Verdict.NO_RACE, ran.stderr)
        self.assertIn("no race in this run", ran.stderr)

    def test_tasks_that_were_awaited_are_not_taken_along_from_part_to_part(self) -> None:
        for name, program in (("gathered", GATHERED), ("in groups", IN_GROUPS), ("each begins the next", CHAIN)):
            with self.subTest(name), tempfile.TemporaryDirectory() as folder:
                journal = Path(folder, "journal")
                ran = run_traced("--part-events", "1000", "--journal", str(journal), self.program(program))
                self.assertEqual(ran.returncode, Verdict.NO_RACE, ran.stderr)
                rows = [read_line(line) for line in journal.read_text().splitlines()]
                positions = [len(row.border.positions) for row in rows if isinstance(row, Begun)]
                self.assertGreater(len(positions), 3)
                self.assertLess(max(positions), MOST_TAKEN_ALONG)

    def test_threads_that_wait_for_a_processor_behind_their_end_may_be_many(self) -> None:
        """As on a machine that is loaded: they have ended, and are waited for much later."""
        ran = run_traced("--part-events", "1000", self.program(LINGERING))
        self.assertEqual(ran.returncode, Verdict.NO_RACE, ran.stderr)

    def test_things_that_are_no_more_are_forgotten_while_the_program_is_never_idle(self) -> None:
        ran = run_traced(self.program(ROWS_THAT_GO))
        self.assertEqual(ran.returncode, Verdict.NO_RACE, ran.stderr)
        self.assertLess(int(ran.stdout), 600)

    def test_what_lies_in_a_queue_knows_what_its_sender_did_until_then_and_nothing_later(self) -> None:
        with tempfile.TemporaryDirectory() as folder:
            journal = Path(folder, "journal")
            ran = run_traced("--watch-nothing", "--part-events", "100", "--journal", str(journal), self.program(HANDED_OVER))
            borders = journal.read_text().count('{"border":')
        self.assertEqual(ran.returncode, Verdict.RACES, ran.stderr)
        self.assertIn("race on kept\n", ran.stderr)
        self.assertNotIn("race on handed\n", ran.stderr)
        self.assertGreater(borders, 5)

    def test_each_reader_of_an_earlier_part_is_known_to_a_writer_who_waited_for_the_last_one(self) -> None:
        ran = run_traced("--part-events", "100", self.program(READERS))
        self.assertEqual(ran.returncode, Verdict.RACES, ran.stderr)
        self.assertRegex(ran.stderr, r"(?s)race on rates\['euro'\].*as event \d+ of part 1 and event \d+ of part \d+")

    def test_turns_of_a_loop(self) -> None:
        for lock, status in (("lock", Verdict.NO_RACE), ("None", Verdict.RACES)):
            ran = run_traced("--part-events", "200", self.program(LOOP.replace("LOCK", lock)))
            self.assertEqual(ran.returncode, status, ran.stderr)

    def test_the_parts_are_kept_and_told_again_from_their_files(self) -> None:
        with tempfile.TemporaryDirectory() as folder:
            export = Path(folder, "run")
            ran = run_traced("--watch-nothing", "--part-events", "300", "--export", str(export), self.program(HANDED_OVER))
            parts = export.read_text().split()
            self.assertEqual(parts, [f"run.part-{number}" for number in range(1, len(parts) + 1)])
            self.assertGreater(len(parts), 2)
            again = run_python("-m", "itc_trace", "races", f"{export}.journal")
            self.assertEqual((again.returncode, again.stdout), (ran.returncode, ran.stderr))
            for part in parts:
                path = str(Path(folder, part))
                one = run_python("-m", "itc_trace", "races", path, f"{path}.journal")
                self.assertEqual(one.returncode, Verdict.NO_RACE, one.stdout + one.stderr)

    def test_a_part_that_has_no_collector_is_not_seen(self) -> None:
        with tempfile.TemporaryDirectory() as folder:
            once = Path(folder, "once")
            once.write_text(f'#!/bin/sh\n[ -e "{folder}/begun" ] && exit 3\ntouch "{folder}/begun"\nexec "{find_program()}" "$@"\n')
            once.chmod(once.stat().st_mode | stat.S_IXUSR)
            ran = run_traced("--watch-nothing", "--part-events", "100", self.program(HANDED_OVER), ITC_TRACE=os.fspath(once))
        self.assertEqual(ran.returncode, Verdict.INCOMPLETE, ran.stderr)
        self.assertRegex(ran.stderr, r"(?m)^itc_trace: incomplete: .*does not serve as a collector")

    def test_a_part_that_is_full_at_the_end_of_the_run_is_the_last_one(self) -> None:
        ran = run_traced("--watch-nothing", self.program(FULL_AT_ITS_END))
        self.assertEqual(ran.returncode, Verdict.RACES, ran.stderr)

    def test_the_collector_of_a_part_that_no_journal_tells_of_is_not_asked(self) -> None:
        with PartCollectors("trace") as collectors:
            first = collectors.port
            second = ask_for_port(collectors.asked_at)
            self.assertEqual([collectors.port_of(part) for part in (1, 2)], [first, second])

    def test_what_only_requests_of_the_process_to_itself_order_is_told_across_parts(self) -> None:
        ran = run_traced("--part-events", "100", self.program(ASKS_ITSELF))
        self.assertEqual(ran.returncode, Verdict.NO_RACE, ran.stderr)
        self.assertRegex(ran.stderr, r"possible race on totals\['slow'\].*\n.*:10 in do_GET.*\n.*:10 in do_GET.*\n.*only by requests of the process to itself; .* of part")
        self.assertIn("no race in this run; 1 possible", ran.stderr)

    def test_an_order_that_was_left_behind_is_not_guessed(self) -> None:
        """More ended threads may be waited for than a part takes along, and the first one is."""
        program = self.program("""
import threading, itc_trace
from itc_trace.record import tracer_parts
tracer_parts.MOST_ENDED = 20
threads = []
def begin():
    for number in range(200):
        thread = threading.Thread(target=itc_trace.touch, args=(f"own {number}",), name="work")
        thread.start()
        threads.append(thread)
beginner = threading.Thread(target=begin)
beginner.start()
beginner.join()
while any(thread.ident is None for thread in threads): pass
for thread in threads: thread.join()
""")
        ran = run_traced("--watch-nothing", "--part-events", "100", program)
        self.assertEqual(ran.returncode, Verdict.INCOMPLETE, ran.stderr)
        self.assertIn("was waited for long after its end", ran.stderr)

    def test_a_journal_that_lacks_a_border_is_not_looked_at_as_a_whole(self) -> None:
        with tempfile.TemporaryDirectory() as folder:
            journal = Path(folder, "journal")
            run_traced("--watch-nothing", "--part-events", "100", "--journal", str(journal), self.program(HANDED_OVER))
            lines = journal.read_text().splitlines(keepends=True)
            first = next(line for line in lines if line.startswith('{"border":2,'))
            journal.write_text("".join(line for line in lines if line != first))
            ran = run_python("-m", "itc_trace", "races", str(journal))
        self.assertEqual(ran.returncode, Verdict.INCOMPLETE, ran.stdout + ran.stderr)

    def test_the_size_of_a_part_is_a_number(self) -> None:
        for word in ("0", "99", "20000", "many"):
            ran = run_traced("--part-events", word, self.program(CLEAN))
            self.assertEqual((ran.returncode, ran.stdout), (2, ""))
            self.assertIn("is no number from 100 to", ran.stderr)


if __name__ == "__main__":
    unittest.main()
