"""What tasks hand over to each other by `anyio` and `tornado` is in order, also if nobody has to wait for it."""

from __future__ import annotations

import unittest

from itc_trace import Verdict

from .same import FORMS
from .support import ProgramCase, needs, python_with, run_traced
from .test_gevent import racing

BEGIN = """
import asyncio, itc_trace
PAUSES = (0, 0, 0), (0, 0.02, 0.04), (0, 0, 0.04)
async def change(name):
    itc_trace.touch(name, write=True)
    await asyncio.sleep(0)
    itc_trace.touch(name, write=True)
async def hold(name, guard, pause):
    await asyncio.sleep(pause)
    if name.endswith("right"):
        async with guard: await change(name)
    else: await change(name)
async def fill(name, put):
    for number in range(3):
        if name.endswith("right"): itc_trace.touch(f"{name} {number}", write=True)
        await put(number)
        if name.endswith("wrong"): itc_trace.touch(f"{name} {number}", write=True)
    for number in range(3):
        if name.endswith("wrong"): itc_trace.touch(f"{name} {number}", write=True)
async def empty(name, get, pause):
    await asyncio.sleep(pause)
    for _ in range(3): itc_trace.touch(f"{name} {await get()}", write=True)
"""
ANYIO = BEGIN + """
import anyio
async def main():
    for way in ("right", "wrong"):
        for number, pauses in enumerate(PAUSES):
            for name, guard in (
                ("lock", anyio.Lock()), ("semaphore", anyio.Semaphore(1)), ("limiter", anyio.CapacityLimiter(1)),
                ("condition", anyio.Condition()),
            ):
                async with anyio.create_task_group() as group:
                    for pause in pauses: group.start_soon(hold, f"{name} {number} {way}", guard, pause)
        for size in (0, 1, 5):
            for pause in (0, 0.02):
                send, receive = anyio.create_memory_object_stream(size)
                name = f"stream {size} {pause} {way}"
                async with anyio.create_task_group() as group:
                    group.start_soon(fill, name, send.send)
                    group.start_soon(empty, name, receive.receive, pause)
        for late in (False, True):
            send, receive = anyio.create_memory_object_stream(1)
            async with anyio.create_task_group() as group:
                for number in range(2): group.start_soon(close, f"end {late} {number} {way}", send.clone())
                send.close()
                group.start_soon(see_the_end, f"end {late}", way, receive, late)
    limiter = anyio.CapacityLimiter(40)
    await asyncio.gather(pass_through("many wrong", limiter, 1), pass_through("many wrong", limiter, 50))
    permits = anyio.Semaphore(2)
    await asyncio.gather(
        take_one(0, ("of two wrong", "of two right"), permits), take_one(0.02, ("of two wrong",), permits),
        take_one(0.04, ("of two right",), permits),
    )
async def take_one(pause, names, permits):
    await asyncio.sleep(pause)
    await permits.acquire()
    for name in names: itc_trace.touch(name, write=True)
    if not pause: permits.release()
async def pass_through(name, limiter, times):
    if times == 1: itc_trace.touch(name, write=True)
    for _ in range(times):
        async with limiter: pass
    if times > 1: itc_trace.touch(name, write=True)
async def close(name, send):
    await asyncio.sleep(0.02)
    if name.endswith("right"): itc_trace.touch(name, write=True)
    send.close()
    if name.endswith("wrong"): itc_trace.touch(name, write=True)
async def see_the_end(name, way, receive, is_late):
    await asyncio.sleep(0.05 if is_late else 0)
    async for _ in receive: pass
    for number in range(2): itc_trace.touch(f"{name} {number} {way}", write=True)
anyio.run(main)
"""
TORNADO = BEGIN + """
import tornado.ioloop, tornado.locks, tornado.queues
async def hold_by_hand(name, guard, pause):
    await asyncio.sleep(pause)
    if name.endswith("right"):
        with await guard.acquire(): await change(name)
    else: await change(name)
async def set_late(name, event):
    await change(name)
    event.set()
async def wait_for(name, event, pause):
    await asyncio.sleep(pause)
    if name.endswith("right"): await event.wait()
    itc_trace.touch(name, write=True)
async def look_for(name, event):
    while name.endswith("right") and not event.is_set(): await asyncio.sleep(0)
    itc_trace.touch(name, write=True)
async def do(jobs, name):
    jobs.put_nowait(name)
    await asyncio.sleep(0.02)
    await jobs.get()
    if name.endswith("right"): itc_trace.touch(name, write=True)
    jobs.task_done()
    if name.endswith("wrong"): itc_trace.touch(name, write=True)
async def join(jobs, name, way, is_late):
    await asyncio.sleep(0.05 if is_late else 0)
    await jobs.join()
    for number in range(2): itc_trace.touch(f"{name} {number} {way}", write=True)
async def main():
    for way in ("right", "wrong"):
        for number, pauses in enumerate(PAUSES):
            for name, guard, holding in (
                ("lock", tornado.locks.Lock(), hold), ("by hand", tornado.locks.Lock(), hold_by_hand),
                ("semaphore", tornado.locks.BoundedSemaphore(1), hold),
            ):
                await asyncio.gather(*(holding(f"{name} {number} {way}", guard, pause) for pause in pauses))
        for pause in (0, 0.02):
            event, name = tornado.locks.Event(), f"event {pause} {way}"
            await asyncio.gather(set_late(name, event), wait_for(name, event, pause))
            for kind in (tornado.queues.Queue, tornado.queues.LifoQueue, tornado.queues.PriorityQueue):
                for size in (0, 1, 2):
                    jobs, name = kind(size), f"{kind.__name__} {size} {pause} {way}"
                    await asyncio.gather(fill(name, jobs.put), empty(name, jobs.get, pause))
        for late in (False, True):
            jobs, name = tornado.queues.Queue(), f"join {late}"
            await asyncio.gather(*(do(jobs, f"{name} {number} {way}") for number in range(2)), join(jobs, name, way, late))
        event, name = tornado.locks.Event(), f"asked {way}"
        await asyncio.gather(set_late(name, event), look_for(name, event))
tornado.ioloop.IOLoop.current().run_sync(main)
"""


OTHER_VERSION = """
import os, sys, tempfile
with tempfile.TemporaryDirectory() as folder:
    sys.path.insert(0, folder)
    for name in ("tornado.locks", "tornado.queues", "anyio.streams.memory", "anyio._core._synchronization"):
        path = os.path.join(folder, *name.split("."))
        os.makedirs(os.path.dirname(path), exist_ok=True)
        with open(f"{path}.py", "w") as module:
            module.write("class Event: set = 3\\nQueue = None\\nclass MemoryObjectSendStream: pass\\n")
    import anyio.streams.memory, anyio._core._synchronization, tornado.locks, tornado.queues
    print(tornado.locks.Event.set, tornado.queues.Queue)
"""


class OtherOrders(ProgramCase):
    def test_a_version_without_these_classes_is_left_as_it_is(self) -> None:
        ran = run_traced(self.program(OTHER_VERSION))
        self.assertEqual((ran.returncode, ran.stdout), (0, "3 None\n"), ran.stderr)

    def check(self, text: str, module: str, count: int) -> None:
        """Without the order each of so many things has a race, and with it none has."""
        program = self.program(text)
        for form, pure in FORMS.items():
            with self.subTest(hooks=form):
                ran = run_traced("--all", program, python=python_with(module), ITC_TRACE_PURE=pure)
                self.assertEqual(ran.returncode, Verdict.RACES, ran.stderr)
                told = set(racing(ran.stderr))
                self.assertEqual({name for name in told if "wrong" not in name}, set(), ran.stderr)
                self.assertEqual(len(told), count, sorted(told))
                self.assertNotIn("possible race", ran.stderr)

    @needs("python3-anyio", "anyio")
    def test_what_anyio_hands_over_is_in_order(self) -> None:
        self.check(ANYIO, "anyio", 4 * 3 + 3 * 2 * 3 + 2 * 2 + 2)

    @needs("python3-tornado", "tornado")
    def test_what_tornado_hands_over_is_in_order(self) -> None:
        self.check(TORNADO, "tornado", 3 * 3 + 2 * (1 + 3 * 3 * 3) + 2 * 2 + 1)


if __name__ == "__main__":
    unittest.main()
