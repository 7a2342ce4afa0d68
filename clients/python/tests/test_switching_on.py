"""Hooks note touches once there is a second task, and before it goes on, whichever thread makes it first."""

from __future__ import annotations

import builtins
import unittest

from itc_trace.watch import begun_loops
from itc_trace.watch.places import LOOPS

from .same import FORMS
from .support import ProgramCase, run_python

AT_ONCE = """
import _thread, os, queue, threading, time
import itc_trace
from itc_trace.watch import begun_loops

items, (end, beginning), own, begun = queue.Queue(), os.pipe(), threading.get_ident(), begun_loops.begun
class Shop:
    left = 2
    def sell(self):
        self.left -= 1
def wake():
    os.read(end, 1)
    items.put(1)
def slowly():
    if threading.get_ident() != own:
        os.write(2, b"puts them\\n")
        time.sleep(PAUSE)
    return begun()
def run(work):
    threads = [threading.Thread(target=work) for _ in range(2)]
    for thread in threads: thread.start()
    for thread in threads: thread.join()

begun_loops.begun = slowly
_thread.start_new_thread(wake, ())
with itc_trace.tracing() as traced:
    os.write(beginning, b"1")
    time.sleep(0.2)
    run(Shop().sell)
    time.sleep(PAUSE)
print(traced.races().text())
"""
"""A thread that began before makes the first task. To find the loops that have begun it takes long."""


class SwitchingOn(ProgramCase):
    def test_a_thread_that_starts_as_another_one_puts_the_hooks_is_seen(self) -> None:
        for form in FORMS.values():
            with self.subTest(form=form):
                ran = run_python(self.program(AT_ONCE.replace("PAUSE", "1")), ITC_TRACE_PURE=form)
                self.assertEqual(ran.stderr, "puts them\n")
                self.assertIn("race on Shop.left", ran.stdout)

    def test_of_two_threads_that_look_for_begun_loops_none_hides_what_the_other_has_found(self) -> None:
        names = vars(builtins)
        before = names.get(LOOPS)
        begun_loops.forget()
        begun_loops.add(frozenset((1, 2)))
        begun_loops.add(frozenset((3,)))
        begun_loops.add(frozenset())
        found = names[LOOPS]
        begun_loops.forget()
        self.assertEqual((found, names[LOOPS]), ({1, 2, 3}, frozenset()))
        names[LOOPS] = before


if __name__ == "__main__":
    unittest.main()
