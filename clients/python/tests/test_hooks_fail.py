"""A hook that fails stops tracing, which is told, and never reaches the program."""

from __future__ import annotations

import unittest
from unittest import mock

from itc_trace import Cause, Verdict, touch, tracing
from itc_trace.record import noting
from itc_trace.model.lines import EVENT

from .support import ProgramCase, run_python, run_traced

ODD_THREADS = """
import threading
class Nameless(threading.Thread):
    name = property(lambda self: 1 / 0, lambda self, name: None)
class Numbered(threading.Thread):
    name = property(lambda self: 7, lambda self, name: None)
class Closed(threading.Thread):
    def __setattr__(self, name, value):
        if name.startswith("_itc"):
            raise AttributeError(name)
        super().__setattr__(name, value)
for kind in (Nameless, Numbered, Closed):
    threads = [kind(target=lambda: None) for _ in range(2)]
    for thread in threads:
        thread.start()
    for thread in threads:
        thread.join()
print("done")
"""
ODD_TASKS = """
import asyncio
class Odd(asyncio.Task):
    def get_name(self):
        raise ValueError("no name")
    def get_coro(self):
        raise ValueError("no coroutine")
class Numbered(asyncio.Task):
    def get_name(self):
        return 7
async def work():
    await asyncio.sleep(0)
async def main():
    for kind in (Odd, Numbered):
        asyncio.get_running_loop().set_task_factory(lambda loop, coro, **named: kind(coro, loop=loop))
        await asyncio.gather(work(), work())
    print("done")
asyncio.run(main())
"""
ODD_TOUCH = """
import itc_trace
itc_trace.touch(["a", "list"], write=True)
print("done")
"""

PLANTED = """
import threading
from itc_trace.watch import hooks
plain, odd = hooks._touch_keyed, ("odd", 1)
def planted(one, key, *words):
    if key == odd:
        raise RuntimeError("planted")
    return plain(one, key, *words)
hooks._touch_keyed = planted
table, count = {odd: 1}, 0
def work():
    global count
    table[odd] = 2
    count += 1
threads = [threading.Thread(target=work) for _ in range(2)]
for thread in threads:
    thread.start()
    JOINED
for thread in threads:
    thread.join()
print(table, count)
"""
UNREADY = """
import threading
def work():
    print([*work.__code__.co_lines()][0], list(work.__code__.co_lines())[0], next(work.__code__.co_lines()), len(list(work.__code__.co_lines())) > 5)
    for one in work.__code__.co_lines():
        pass
thread = threading.Thread(target=work)
thread.start()
thread.join()
"""
"""The type of these iterators has no order of classes yet."""


class FailingHooks(ProgramCase):
    def test_a_fault_costs_its_touch_alone(self) -> None:
        lost = "itc_trace: incomplete: 2 touches could not be noted at program.py:13*: RuntimeError: planted in a hook"
        for hooks in ("", "1"):
            with self.subTest(hooks=hooks):
                ran = run_traced(self.program(PLANTED.replace("JOINED", "pass")), ITC_TRACE_PURE=hooks)
                self.assertEqual((ran.returncode, ran.stdout), (Verdict.RACES, "{('odd', 1): 2} 2\n"), ran.stderr)
                self.assertIn("count", ran.stderr)
                ran = run_traced(self.program(PLANTED.replace("JOINED", "thread.join()")), ITC_TRACE_PURE=hooks)
                self.assertEqual((ran.returncode, ran.stderr.splitlines()[0]), (Verdict.INCOMPLETE, lost), ran.stderr)

    def test_a_type_that_is_not_ready_is_looked_at_as_any_other(self) -> None:
        for hooks in ("", "1"):
            with self.subTest(hooks=hooks):
                program = self.program(UNREADY)
                plain, ran = run_python(program), run_traced(program, ITC_TRACE_PURE=hooks)
                self.assertEqual((ran.returncode, ran.stdout), (0, plain.stdout), ran.stderr)

    def test_odd_threads_and_tasks_run_as_untraced(self) -> None:
        for text in (ODD_THREADS, ODD_TASKS):
            with self.subTest(text=text):
                program = self.program(text)
                plain, ran = run_python(program), run_traced("--quiet", program)
                self.assertEqual((ran.returncode, ran.stdout, ran.stderr), (0, plain.stdout, plain.stderr))

    def test_a_touch_that_cannot_be_noted_is_told_and_not_raised(self) -> None:
        ran = run_traced(self.program(ODD_TOUCH))
        self.assertEqual((ran.returncode, ran.stdout), (Verdict.INCOMPLETE, "done\n"), ran.stderr)
        self.assertIn("itc_trace: incomplete: TypeError in a hook: unhashable type: 'list'", ran.stderr)

    def test_a_failing_hook_is_no_all_clear(self) -> None:
        for name in ("place", "line_of_now", "touch_at"):
            with self.subTest(name=name):
                with tracing() as traced:
                    touch("x", write=True)
                    with mock.patch.object(noting, name, side_effect=RuntimeError("planted")):
                        touch("x", write=True)
                        noting.mark(EVENT)
                self.assertIs(traced.races().verdict(), Verdict.INCOMPLETE)
                self.assertEqual([one.cause for one in traced.races().unseen], [Cause.TRACER])


if __name__ == "__main__":
    unittest.main()
