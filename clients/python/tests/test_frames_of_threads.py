"""Frames of other threads are looked at while no thread goes on: else the interpreter may write where a frame was."""

from __future__ import annotations

import sys
import unittest

from .support import PACKAGE, ProgramCase, run_python

LOOKING = """
import gc, sys, threading
from itc_trace.model import frames_of_threads
look = getattr(frames_of_threads, sys.argv[1])
kept, is_armed, hits = [], [False], []
go, left, ready = threading.Lock(), threading.Lock(), threading.Lock()
for lock in (go, left, ready): lock.acquire()
def inner(depth, text):
    ready.release()
    go.acquire()
    return text * depth
def run():
    while True:
        inner(3, "text")
        left.release()
def collected(phase, info):
    '''Garbage is collected as something is made. Meanwhile the thread leaves the frame that is looked at.'''
    if is_armed[0] and phase == "start":
        is_armed[0] = False
        go.release()
        left.acquire()
        hits.append(1)
thread = threading.Thread(target=run, daemon=True)
thread.start()
gc.callbacks.append(collected)
gc.collect()
gc.freeze()
total = 0
for turn in range(24):
    ready.acquire()
    frame = sys._current_frames()[thread.ident]
    while frame.f_code.co_name != "inner": frame = frame.f_back
    kept.extend({} for _ in range(100))  # Those that the interpreter keeps for later are used up.
    gc.collect(0)
    hits.clear()
    kept.extend([{}, {}, {}, {}, {}])
    gc.set_threshold(3 + turn % 8)
    is_armed[0] = True
    found = look(frame)
    is_armed[0] = False
    gc.set_threshold(700)
    total += len(hits)
    if not hits:
        go.release()
        left.acquire()
    kept[:] = [found]
print(total, gc.isenabled())
gc.disable()
ready.acquire()
look(sys._current_frames()[thread.ident])
print(gc.isenabled(), frames_of_threads.frames_now().keys() == sys._current_frames().keys())
"""
SUSPENDED = """
import gc, sys
from itc_trace.model.frames_of_threads import all_at_once, frame_of
hits = []
gc.callbacks.append(lambda phase, info: hits.append(phase))
def made():
    yield 1
async def awaited(): pass
async def stepped():
    yield 1
def count(look):
    # How many collections of garbage there are while it looks, whatever was made before.
    for turn in range(24):
        kept = [{} for _ in range(100)]
        gc.collect(0)
        kept.extend([{}, {}, {}, {}, {}])
        gc.set_threshold(3 + turn % 8)
        hits.clear()
        look()
        seen = len(hits)
        gc.set_threshold(700)
        if seen: return seen
    return 0
waiting = [make() for make in (made, awaited, stepped) for _ in range(24)]
frames = []
def look_at_next():
    frames.append(frame_of(waiting[len(frames)]))
for _ in range(3):
    print(count(look_at_next), {frame.f_code.co_name for frame in frames[-24:]}, gc.isenabled())
ways = [map(list, ["ab"] * 20) for _ in range(24)]
print(count(lambda: all_at_once(ways.pop())), all_at_once(zip("ab", "cd")), gc.isenabled())
print(frame_of(3), frame_of(None), frame_of(made()).f_code.co_name)
over = made()
list(over)
gc.disable()
print(frame_of(over), frame_of(waiting[0]) is frames[0], all_at_once(iter("a")), gc.isenabled())
for one in waiting[24:48]: one.close()
"""
SEEN = """0 {'made'} True
0 {'awaited'} True
0 {'stepped'} True
0 [('a', 'c'), ('b', 'd')] True
None None made
None True ['a'] False
"""
LEFT_MEANWHILE = """
import _thread, sys
from itc_trace.model.frames_of_threads import locals_of
go, left, ready = [_thread.allocate_lock() for _ in range(3)]
for lock in (go, left, ready): lock.acquire()
looking, ran_in = _thread.get_ident(), []
class Thing:
    def __del__(self):  # If the one who looks lets it go, the thread leaves the frame meanwhile, and ends.
        ran_in.append(_thread.get_ident() == looking)
        if ran_in[-1]:
            go.release()
            left.acquire()
def inner(depth):
    thing = Thing()
    others = [depth]
    more = {depth: others}
    ready.release()
    go.acquire()
    del thing
    ready.release()
    go.acquire()
def deep(depth):
    one = other = third = fourth = depth * "text"
    if depth: deep(depth - 1)
def run():
    inner(3)
    deep(9)
    left.release()
found = []
for turn in range(20):
    thread = _thread.start_new_thread(run, ())
    ready.acquire()
    frame = sys._current_frames()[thread]
    while frame.f_code.co_name != "inner": frame = frame.f_back
    found.append(list(locals_of(frame)))
    go.release()
    ready.acquire()
    found.append(list(locals_of(frame)))
    if not ran_in[-1]:
        go.release()
        left.acquire()
    del frame
print(len(ran_in), any(ran_in), found == [["depth", "thing", "others", "more"], ["depth", "others", "more"]] * 20)
"""
FOLLOWED = """
import sys, threading
from itc_trace.model import frames_of_threads
go, ready, found = threading.Lock(), threading.Lock(), []
go.acquire()
ready.acquire()
def follow(frame, event, argument):
    if event == "line" and frame.f_code.co_name == "inner" and "total" in frame.f_locals:
        ready.release()
        go.acquire()
    return follow
def inner(one):
    total = one + 1
    return one, total
def run():
    if sys.argv[1] == "sys": sys.settrace(follow)
    found.append(inner(1))
if sys.argv[1] == "threading": threading.settrace(follow)
thread = threading.Thread(target=run)
thread.start()
ready.acquire()
frame = sys._current_frames()[thread.ident]
while frame.f_code.co_name != "inner": frame = frame.f_back
found.append(dict(frames_of_threads.locals_of(frame)))
go.release()
thread.join()
print(found)
"""
HAS_COPY = """
import sys
from itc_trace.model.frames_of_threads import are_followed, locals_of
def inner(one):
    frame = sys._getframe()
    has_copy = frame.f_locals
    first = locals_of(frame)
    print(first is has_copy, list(has_copy))
    del has_copy, first
    found = locals_of(frame)
    one = None
    print(found["one"], locals_of(frame)["one"])
inner(1)
class Body:
    here = 1
    locals_of(sys._getframe())
print(locals_of(sys._getframe()) is globals(), Body.here, are_followed())
"""
LOOKED = "processes/waits.py", "watch/begun_loops.py"
"""The modules that look at frames of other threads."""


class Frames(ProgramCase):
    def test_no_garbage_is_collected_while_one_is_looked_at(self) -> None:
        for look in ("locals_of", "caller_of"):
            with self.subTest(look):
                ran = run_python(self.program(LOOKING), look)
                self.assertEqual((ran.returncode, ran.stdout), (0, "0 True\nFalse True\n"), ran.stderr)

    def test_no_garbage_is_collected_while_one_that_waits_is_looked_at(self) -> None:
        ran = run_python(self.program(SUSPENDED))
        self.assertEqual((ran.returncode, ran.stdout), (0, SEEN), ran.stderr)

    def test_no_finalizer_runs_while_one_is_looked_at(self) -> None:
        ran = run_python(self.program(LEFT_MEANWHILE))
        self.assertEqual((ran.returncode, ran.stdout), (0, "20 False True\n"), ran.stderr)

    def test_a_thread_that_a_debugger_follows_keeps_its_variables(self) -> None:
        seen = "[{'one': 1, 'total': 2}, (1, 2)]\n"
        program = self.program(FOLLOWED)
        for words in ([program, "threading"], ["-m", "itc_trace", "run", program, "sys"]):
            with self.subTest(words[-1]):
                ran = run_python(*words)
                self.assertEqual(ran.stdout, seen, ran.stderr)

    @unittest.skipIf(sys.version_info >= (3, 13), "the variables of a frame are no copy")
    def test_the_copy_that_the_program_has_stays(self) -> None:
        ran = run_python(self.program(HAS_COPY))
        seen = "True ['one', 'frame', 'has_copy']\n1 None\nTrue 1 False\n"
        self.assertEqual((ran.returncode, ran.stdout), (0, seen), ran.stderr)

    def test_no_module_looks_at_them_otherwise(self) -> None:
        for name in LOOKED:
            source = (PACKAGE / "itc_trace" / name).read_text()
            for word in (".f_locals", ".f_back", "sys._current_frames()", "cr_frame", "gi_frame", "ag_frame", "list(_places"):
                self.assertNotIn(word, source, name)


if __name__ == "__main__":
    unittest.main()
