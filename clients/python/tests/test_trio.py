"""Tasks of trio are tasks of the trace, and what trio promises puts them in order.

Each scenario of ORDERS is run twice. In the right way a task touches a thing, hands over, and another one that comes after it
touches that too. In the wrong way the first one touches it behind the handing over, so the two race.
"""

from __future__ import annotations

import re
import unittest

from itc_trace import Verdict

from .support import ProgramCase, needs, python_with, run_python, run_traced

BEGIN = """
import functools, threading, trio, itc_trace
scenarios = []
def nothing(): pass
def scenario(function):
    scenarios.append(function)
def run_all():
    for function in scenarios:
        for way in ("right", "wrong"):
            hit = functools.partial(itc_trace.touch, f"{function.__name__} {way}", write=True)
            before, behind = (hit, nothing) if way == "right" else (nothing, hit)
            trio.run(function, before, behind, hit)
async def together(*functions):
    async with trio.open_nursery() as nursery:
        for function in functions:
            nursery.start_soon(function)
async def a_while():
    await trio.testing.wait_all_tasks_blocked()
"""
ORDERS = BEGIN + """
import trio.testing
@scenario
async def a_child_comes_after_its_start(before, behind, after):
    async def child(): after()
    async with trio.open_nursery() as nursery:
        before()
        nursery.start_soon(child)
        behind()

@scenario
async def a_nursery_ends_behind_its_children(before, behind, after):
    done = trio.Event()
    async def child():
        before()
        done.set()
        if behind is not nothing:
            later.start_soon(other)
    async def other(): behind()
    async with trio.open_nursery() as later:
        async with trio.open_nursery() as nursery:
            nursery.start_soon(child)
            nursery.start_soon(a_while)
        after()

@scenario
async def start_goes_on_behind_started(before, behind, after):
    async def child(task_status=trio.TASK_STATUS_IGNORED):
        before()
        task_status.started()
        behind()
    async with trio.open_nursery() as nursery:
        await nursery.start(child)
        after()

@scenario
async def an_event_that_is_waited_for(before, behind, after):
    ready = trio.Event()
    async def one():
        await a_while()
        before()
        ready.set()
        behind()
    async def other():
        await ready.wait()
        after()
    await together(one, other)

@scenario
async def an_event_that_is_set_already(before, behind, after):
    ready = trio.Event()
    async def one():
        before()
        ready.set()
        behind()
    async def other():
        await a_while()
        await ready.wait()
        after()
    await together(one, other)

@scenario
async def an_event_that_is_seen_set(before, behind, after):
    ready = trio.Event()
    async def one():
        before()
        ready.set()
        behind()
    async def other():
        await a_while()
        assert ready.is_set()
        after()
    await together(one, other)

@scenario
async def an_item_that_waits_in_a_channel(before, behind, after):
    sender, receiver = trio.open_memory_channel(9)
    async def one():
        before()
        await sender.send(1)
        behind()
    async def other():
        await a_while()
        assert await receiver.receive() == 1
        after()
    await together(one, other)

@scenario
async def an_item_that_is_waited_for(before, behind, after):
    sender, receiver = trio.open_memory_channel(9)
    async def one():
        await a_while()
        before()
        sender.send_nowait(1)
        behind()
    async def other():
        async for _ in receiver:
            break
        after()
    await together(one, other)

@scenario
async def an_item_whose_sender_waits(before, behind, after):
    sender, receiver = trio.open_memory_channel(1)
    sender.send_nowait(0)
    async def one():
        before()
        await sender.send(1)
    async def later():
        behind()
    async def other():
        await a_while()
        assert [await receiver.receive() for _ in range(2)] == [0, 1]
        after()
    await together(one, later, other)

@scenario
async def room_that_was_made(before, behind, after):
    sender, receiver = trio.open_memory_channel(1)
    sender.send_nowait(0)
    async def one():
        await a_while()
        before()
        receiver.receive_nowait()
        behind()
    async def other():
        await sender.send(1)
        after()
    await together(one, other)

@scenario
async def room_that_was_made_before(before, behind, after):
    sender, receiver = trio.open_memory_channel(2)
    sender.send_nowait(0)
    sender.send_nowait(0)
    async def one():
        before()
        receiver.receive_nowait()
        behind()
    async def other():
        await a_while()
        await sender.send(1)
        after()
    await together(one, other)

@scenario
async def a_meeting_without_places(before, behind, after):
    sender, receiver = trio.open_memory_channel(0)
    async def one():
        before()
        await receiver.receive()
        behind()
    async def other():
        await a_while()
        await sender.send(1)
        after()
    await together(one, other)

@scenario
async def the_end_of_a_channel(before, behind, after):
    sender, receiver = trio.open_memory_channel(0)
    async def one(end):
        async with end:
            before()
        behind()
    async def last(end):
        await a_while()
        await end.aclose()
    async def other():
        async for _ in receiver:
            pass
        after()
    await together(functools.partial(one, sender.clone()), functools.partial(last, sender), other)

@scenario
async def a_condition_that_is_notified(before, behind, after):
    condition = trio.Condition()
    async def one():
        await a_while()
        before()
        async with condition:
            condition.notify()
        behind()
    async def other():
        async with condition:
            await condition.wait()
        after()
    await together(one, other)

@scenario
async def a_permit_that_is_waited_for(before, behind, after):
    permits = trio.Semaphore(0)
    async def one():
        await a_while()
        before()
        permits.release()
        behind()
    async def other():
        await permits.acquire()
        after()
    await together(one, other)

@scenario
async def a_permit_that_is_there(before, behind, after):
    permits = trio.Semaphore(0)
    async def one():
        before()
        permits.release()
        behind()
    async def other():
        await a_while()
        permits.acquire_nowait()
        after()
    await together(one, other)

@scenario
async def a_place_of_a_limiter(before, behind, after):
    limiter = trio.CapacityLimiter(2)
    limiter.acquire_on_behalf_of_nowait("another")
    async def one():
        async with limiter:
            before()
        behind()
    async def other():
        await a_while()
        async with limiter:
            after()
    await together(one, other)

@scenario
async def a_task_that_is_cancelled(before, behind, after):
    scope = trio.CancelScope()
    async def one():
        await a_while()
        before()
        scope.cancel()
        behind()
    async def other():
        with scope:
            await trio.sleep_forever()
        after()
    await together(one, other)

@scenario
async def a_task_that_sees_later_that_it_is_cancelled(before, behind, after):
    scope, step = trio.CancelScope(), trio.Event()
    async def one():
        before()
        scope.cancel()
        behind()
    async def other():
        with trio.CancelScope() as inner, scope:
            inner.shield = True
            await a_while()
            inner.shield = False
            with trio.CancelScope(shield=True):
                await a_while()
            await trio.sleep_forever()
        after()
    await together(one, other)

@scenario
async def what_a_parking_lot_wakes(before, behind, after):
    lot = trio.lowlevel.ParkingLot()
    async def one():
        await a_while()
        before()
        lot.unpark()
        behind()
    async def other():
        await lot.park()
        after()
    await together(one, other)

@scenario
async def what_is_rescheduled(before, behind, after):
    tasks = []
    async def one():
        await a_while()
        before()
        trio.lowlevel.reschedule(tasks[0])
        behind()
    async def other():
        tasks.append(trio.lowlevel.current_task())
        await trio.lowlevel.wait_task_rescheduled(lambda _: trio.lowlevel.Abort.SUCCEEDED)
        after()
    await together(one, other)

@scenario
async def a_function_in_a_thread(before, behind, after):
    async def one():
        before()
        await trio.to_thread.run_sync(after)
    async def other():
        behind()
    await together(one, other)

@scenario
async def what_a_thread_has_done(before, behind, after):
    async def other():
        behind()
    async with trio.open_nursery() as nursery:
        nursery.start_soon(other)
        await trio.to_thread.run_sync(before)
        after()

@scenario
async def a_function_that_a_thread_asks_for(before, behind, after):
    def work():
        before()
        trio.from_thread.run_sync(after)
    await together(functools.partial(trio.to_thread.run_sync, work), functools.partial(trio.to_thread.run_sync, behind))

@scenario
async def what_a_thread_awaits(before, behind, after):
    async def inner():
        before()
        await trio.sleep(0)
    def work():
        trio.from_thread.run(inner)
        after()
    await together(functools.partial(trio.to_thread.run_sync, work), functools.partial(trio.to_thread.run_sync, behind))

@scenario
async def what_a_thread_calls_soon(before, behind, after):
    token, ready = trio.lowlevel.current_trio_token(), trio.Event()
    def work():
        before()
        token.run_sync_soon(ready.set)
        behind()
    thread = threading.Thread(target=work)
    thread.start()
    await ready.wait()
    after()
    thread.join()

run_all()
"""
NO_ORDERS = BEGIN + """
import trio.testing
@scenario
async def tasks_of_one_nursery(before, behind, after):
    async def one(): before(); behind()
    async def other():
        await a_while()
        after()
    await together(one, other)

@scenario
async def an_item_for_another(before, behind, after):
    sender, receiver = trio.open_memory_channel(99)
    async def one():
        sender.send_nowait(1)
        before(); behind()
    async def other():
        await a_while()
        sender.send_nowait(2)
        after()
    await together(one, other)

@scenario
async def two_functions_in_threads(before, behind, after):
    async def one():
        await trio.to_thread.run_sync(before)
        await trio.to_thread.run_sync(behind)
    async def other():
        await a_while()
        await trio.sleep(0.1)
        await trio.to_thread.run_sync(after)
    await together(one, other)

@scenario
async def a_channel_that_is_asked(before, behind, after):
    sender, receiver = trio.open_memory_channel(99)
    async def one():
        before(); behind()
        sender.send_nowait(1)
    async def other():
        await a_while()
        assert receiver.statistics().current_buffer_used == 1
        after()
    await together(one, other)

run_all()
"""
LOCKS = """
import trio, trio.testing, itc_trace
async def sell(lock, name, is_in):
    async with lock:
        if is_in: itc_trace.touch(name, write=True)
        await trio.sleep(0)
    if not is_in:
        itc_trace.touch(name, write=True)
async def audit(lock, name, is_in):
    await trio.testing.wait_all_tasks_blocked(0.001)
    if not is_in:
        async with lock: pass
        itc_trace.touch(name, write=True)
    async with lock:
        if is_in: itc_trace.touch(name, write=True)
async def later(lock, name, is_in):
    await trio.sleep(0.05)
    await (audit if is_in else early)(lock, name, is_in)
async def early(lock, name, is_in):
    async with lock: pass
    itc_trace.touch(name, write=True)
async def before(lock, name, is_in):
    itc_trace.touch(name, write=True)
    async with lock: pass
async def main():
    for kind in (trio.Lock, trio.StrictFIFOLock, trio.Condition, lambda: trio.Semaphore(1), lambda: trio.CapacityLimiter(1)):
        lock = kind()
        name = type(lock).__name__
        async with trio.open_nursery() as nursery:
            for _ in range(3): nursery.start_soon(sell, lock, f"{name} in", True)
            nursery.start_soon(later, lock, f"{name} in", True)
        async with trio.open_nursery() as nursery:
            nursery.start_soon(before, lock, f"{name} out", False)
            nursery.start_soon(later, lock, f"{name} out", False)
trio.run(main)
"""
WATCHED = """
import sys, trio
table, lock, is_locked = {"left": 100}, trio.Lock(), sys.argv[1] == "locked"
async def sell():
    left = table["left"]
    await trio.sleep(0)
    table["left"] = left - 1
async def sell_alone():
    if is_locked:
        async with lock: await sell()
    else:
        await sell()
async def main():
    async with trio.open_nursery() as nursery:
        for _ in range(3): nursery.start_soon(sell_alone)
    return table["left"]
left = trio.run(main)
assert (left == 97) is is_locked, left
table["left"] = 0
"""
GUEST = """
import asyncio, trio
table = {"left": 0}
async def add():
    left = table["left"]
    await trio.sleep(0)
    table["left"] = left + 1
async def main():
    async with trio.open_nursery() as nursery:
        for _ in range(2): nursery.start_soon(add)
async def host():
    done = asyncio.get_running_loop().create_future()
    trio.lowlevel.start_guest_run(main, run_sync_soon_threadsafe=asyncio.get_running_loop().call_soon_threadsafe, done_callback=done.set_result)
    (await done).unwrap()
asyncio.run(host())
"""
DEADLOCK = """
import trio
first, second = trio.Lock(), trio.Lock()
async def go(one, other):
    async with one:
        async with other: pass
async def main():
    async with trio.open_nursery() as nursery:
        nursery.start_soon(go, first, second)
        await trio.sleep(0.01)
        nursery.start_soon(go, second, first)
trio.run(main)
"""
FAULTS = """
import traceback, trio
async def fail(): raise ValueError("no")
async def main():
    lock, event = trio.Lock(), trio.Event()
    for call in (lock.release, trio.Semaphore(1, max_value=1).release, trio.CapacityLimiter(1).release):
        try: call()
        except Exception as fault: traceback.print_exc()
    sender, receiver = trio.open_memory_channel(1)
    sender.send_nowait(1)
    for call in (lambda: sender.send_nowait(2), lambda: [receiver.receive_nowait() for _ in range(2)]):
        try: call()
        except trio.WouldBlock: traceback.print_exc()
    with trio.move_on_after(0.001) as scope: await receiver.receive()
    print(scope.cancelled_caught)
    for wrong in (print, 3):
        try: await trio.to_thread.run_sync(wrong, sep=4)
        except TypeError as fault: print(fault)
    try: await trio.to_thread.run_sync(lambda: int("x"))
    except ValueError: traceback.print_exc()
    try: await trio.to_thread.run_sync(lambda: trio.from_thread.run(fail))
    except ValueError: traceback.print_exc()
    try:
        async with trio.open_nursery() as nursery:
            nursery.start_soon(fail)
    except BaseException: traceback.print_exc()
    print(trio.lowlevel.current_task().name, [task.name for task in trio.lowlevel.current_root_task().child_nurseries[0].child_tasks])
    async def named(): print(trio.lowlevel.current_task().name)
    await trio.to_thread.run_sync(lambda: trio.from_thread.run(named))
    print(trio.Event.set.__qualname__, trio.to_thread.run_sync.__name__, trio.to_thread.run_sync.__module__)
trio.run(main)
"""


def racing(told: str) -> set[str]:
    return set(re.findall(r"itc_trace: race on (.+)", told))


@needs("python3-trio", "trio")
class Trio(ProgramCase):
    def run_it(self, text: str, *words: str) -> tuple[int, str]:
        ran = run_traced(self.program(text), *words, python=python_with("trio"))
        self.assertNotIn("Traceback", ran.stderr)
        self.assertNotIn("incomplete", ran.stderr)
        return ran.returncode, ran.stderr

    def test_each_order_holds_and_what_it_does_not_put_in_order_races(self) -> None:
        names = re.findall(r"@scenario\nasync def (\w+)", ORDERS)
        self.assertGreater(len(names), 20)
        _, told = self.run_it(ORDERS)
        self.assertEqual(racing(told), {f"{name} wrong" for name in names}, told)
        self.assertNotIn("possible", told)

    def test_what_gives_no_order(self) -> None:
        names = re.findall(r"@scenario\nasync def (\w+)", NO_ORDERS)
        _, told = self.run_it(NO_ORDERS)
        self.assertEqual(racing(told), {f"{name} {way}" for name in names for way in ("right", "wrong")}, told)

    def test_locks_keep_tasks_apart_and_put_them_in_order_by_luck(self) -> None:
        _, told = self.run_it(LOCKS)
        self.assertEqual(racing(told), set(), told)
        possible = set(re.findall(r"possible race on (.+)", told))
        self.assertEqual(possible, {"Lock out", "StrictFIFOLock out", "Condition out"}, told)

    def test_a_lost_update_is_told_and_one_under_a_lock_is_not(self) -> None:
        status, told = self.run_it(WATCHED, "plain")
        self.assertEqual((status, racing(told)), (Verdict.RACES, {"table['left'] (a dict made at program.py:3)"}), told)
        self.assertRegex(told, r"write at .*program\.py:7 in sell")
        status, told = self.run_it(WATCHED, "locked")
        self.assertEqual(status, Verdict.NO_RACE, told)
        self.assertIn("no race in this run: ", told)

    def test_a_guest_of_asyncio(self) -> None:
        status, told = self.run_it(GUEST)
        self.assertEqual((status, len(racing(told))), (Verdict.RACES, 1), told)

    def test_two_orders_of_locks_are_a_possible_deadlock(self) -> None:
        _, told = self.run_it(DEADLOCK)
        self.assertIn("possible deadlock on ", told)

    def test_what_fails_does_so_as_ever(self) -> None:
        program, python = self.program(FAULTS), python_with("trio")
        plain, traced = run_python(program, python=python), run_traced("--quiet", program, python=python)
        self.assertEqual(traced.stdout, plain.stdout)
        self.assertEqual(traced.stderr, plain.stderr)
        self.assertGreater(plain.stderr.count("Traceback"), 5)


if __name__ == "__main__":
    unittest.main()
