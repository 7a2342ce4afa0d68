"""What a program made and ran before it was traced for the first time: its locks give order, and what it defines later has hooks."""

from __future__ import annotations

import sys
import unittest

from .same import FORMS
from .support import ProgramCase, run_python

LOCKS = """
import collections, functools, queue, sys, threading
def once(): pass
for _ in range(2):  # So the identities of threads that are over come again.
    thread = threading.Thread(target=once); thread.start(); thread.join()

variable, again, permit = threading.Lock(), threading.RLock(), threading.Semaphore(1)
of_lock, of_own = threading.Condition(threading.Lock()), threading.Condition()
shared_lock = threading.Lock(); of_shared = threading.Condition(shared_lock)
class Slots:
    __slots__ = ("lock",)
    def __init__(self): self.lock = threading.Lock()
class Plain:
    of_class = threading.RLock()
    def __init__(self): self.lock = threading.RLock()
class Own(threading.Thread):
    def __init__(self): super().__init__(); self.lock = threading.Lock()
class Jobs(queue.Queue):
    def __init__(self): super().__init__(); self.lock = threading.RLock()
class Handle(threading.Condition): pass
slots, plain, own, jobs, handle = Slots(), Plain(), Own(), Jobs(), Handle()
rows, table, line, pair = [threading.Lock()], {"a": threading.Lock()}, collections.deque([threading.Lock()]), (1, threading.Lock())
members = {threading.Lock()}
Named = collections.namedtuple("Named", "lock")
named = Named(threading.RLock())
data = collections.Counter()
def add(lock, key):
    with lock: data[key] = data[key] + 1
def closure():
    lock = threading.Lock()
    def run():
        with lock: data["closure"] = data["closure"] + 1
    return run
def default(lock=threading.Lock()):
    with lock: data["default"] = data["default"] + 1
def keyword(*, lock=threading.RLock()):
    with lock: data["keyword"] = data["keyword"] + 1
def steps(lock):
    yield
    yield lock
begun = steps(threading.Lock()); next(begun)
within, part, named_part = closure(), functools.partial(add, threading.Lock(), "part"), functools.partial(add, key="named part", lock=threading.Lock())
def wait_for_n():
    with of_own:
        of_own.wait_for(lambda: data["n"], 60)
        data["n"] = data["n"] + 1
def notify():
    with of_own:
        data["n"] = data["n"] + 1
        of_own.notify_all()
def permits(of=threading.Semaphore(2)):
    with of: data["two permits"] = data["two permits"] + 1

def main(given):
    local, again_local = threading.Lock(), threading.RLock()
    with itc_trace.tracing() as traced:
        locks = dict(
            variable=variable, again=again, permit=permit, of_lock=of_lock, of_shared=of_shared, slots=slots.lock, plain=plain.lock,
            of_class=Plain.of_class, own=own.lock, jobs=jobs.lock, handle=handle, rows=rows[0], table=table["a"], line=line[0], pair=pair[1],
            members=next(iter(members)), named=named.lock, given=given, local=local, again_local=again_local, begun=next(begun),
        )
        works = [functools.partial(add, lock, name) for name, lock in locks.items()]
        works += [within, part, named_part, default, keyword, permits, functools.partial(add, shared_lock, "of_shared")]
        threads = [threading.Thread(target=work) for work in works for _ in range(2)]
        threads += [threading.Thread(target=wait_for_n), threading.Thread(target=notify)]
        for thread in threads: thread.start()
        for thread in threads: thread.join()
    found = traced.races()
    print(*sorted(race.thing for race in found.races), *(one.text for one in found.unseen), sep="\\n")
    print(*[name for name in ("given", "local") if not hasattr(locks[name], "_itc_token")])

import itc_trace
main(threading.Lock())
"""
"""Each place has a key of its own. Two tasks may have two permits at once."""
NOT_FOLLOWED = """
import multiprocessing.pool, queue, sys, threading, time
lock, held, again_held, jobs = threading.Lock(), threading.Lock(), threading.RLock(), queue.SimpleQueue()
acquire = lock.acquire
key, looked_at = threading.Lock(), threading.RLock(); of_keys = {key: 1}; import weakref; weak = [weakref.ref(looked_at)]
held.acquire(); again_held.acquire()
pool = multiprocessing.pool.ThreadPool(1)
import itc_trace
for _ in range(2):
    with itc_trace.tracing() as traced: pass
    print(traced.races().verdict().name, *(one.text for one in traced.races().unseen), sep="\\n")
pool.terminate(); pool.join()
"""
WAYS_AROUND = ("Lock lock", "Lock key", "RLock looked_at", "SimpleQueue jobs", "ThreadPool pool")
WAITING = """
import gc, sys, threading, time, weakref
lock, condition, ready, table = threading.RLock(), threading.Condition(), [], {"n": 0}
plain = threading.Lock(); of_keys, of_pairs, of_set, weak = {plain: "plain", lock: "again"}, {(1, plain): "pair", (2, lock): "again"}, frozenset([plain, lock]), weakref.WeakKeyDictionary({plain: 1})
waits = threading.Event()
def wait():
    with condition:
        waits.set()
        while not ready: condition.wait(60)
        table["n"] += 1
        print("woken")
early = threading.Thread(target=wait); early.start(); waits.wait()
with condition: pass  # It waits by now.
class Thing: pass
def block(traced):
    kept = locals()
    thing = Thing(); gone = weakref.ref(thing)
    with traced:
        with condition: ready.append(1); table["n"] += 1; condition.notify_all()
        early.join()
        with lock:
            with lock: print(repr(lock)[:14], repr(lock).rpartition(" at ")[0][-7:])
        print(repr(lock)[:16])
        other = threading.Condition(lock)
        with other: print(other.wait(0.01), lock._is_owned())
        print(of_keys[plain], of_keys[lock], of_pairs[1, plain], of_pairs[2, lock], plain in of_set, lock in of_set, weak[plain], plain == plain, plain == lock, plain == 3, plain != 3, len({plain, plain}))
        try: lock.release()
        except RuntimeError as error: print(error)
        print(lock.acquire(timeout=1), lock.acquire(False)); lock.release(); lock.release()
    del thing
    print(sorted(kept), gone() is None)
def block_alone(traced):
    thing = Thing(); gone = weakref.ref(thing)
    with traced: pass
    del thing
    print(gone() is None)
if "traced" in sys.argv:
    import itc_trace
    first = itc_trace.tracing()
    block_alone(first); block(itc_trace.tracing())
else:
    import contextlib
    block_alone(contextlib.nullcontext()); block(contextlib.nullcontext())
"""
LATER = """
import sys, threading, itc_trace
count = {}
def run(*works):
    with itc_trace.tracing() as traced: work(*works)
    return traced.races()
def work(*works):
    threads = [threading.Thread(target=one) for one in works for _ in range(2)]
    for thread in threads: thread.start()
    for thread in threads: thread.join()
def told(found): print(*sorted({race.thing for race in found.races}))
run(int)
def function(): count["function"] = count.get("function", 0) + 1
class Late:
    def method(self): count["method"] = count.get("method", 0) + 1
    @staticmethod
    def of_class(): count["of_class"] = count.get("of_class", 0) + 1
    class Inner:
        def run(self): count["inner"] = count.get("inner", 0) + 1
def maker():
    rows = []
    def inner(): count["closure"] = count.get("closure", 0) + 1
    return inner
other = {}
told(run(function, Late().method, Late.of_class, Late.Inner().run, maker(), lambda: other.update(n=other.get("n", 0) + 1)))
with itc_trace.tracing() as traced:
    def within(): count["within"] = count.get("within", 0) + 1
    async def coroutine(): count["coroutine"] = count.get("coroutine", 0) + 1
    def drive():
        try: coroutine().send(None)
        except StopIteration: pass
    def rows():
        count["generator"] = count.get("generator", 0) + 1
        yield
    work(within, drive, lambda: next(rows()))
told(traced.races())
def nested():
    with itc_trace.tracing() as traced:
        def local(): count["local"] = count.get("local", 0) + 1
        work(local)
    return traced.races()
told(nested())
print(*{f"{one.what} at {one.place}" for one in traced.races().passed_over})
"""
NESTED_FIRST = """
import threading, itc_trace
count = {"n": 0}
def main():
    with itc_trace.tracing() as traced:
        def local(): count["n"] += 1
        class Late:
            def run(self): count["m"] = count.get("m", 0) + 1
        threads = [threading.Thread(target=one) for one in (local, Late().run) for _ in range(2)]
        for thread in threads: thread.start()
        for thread in threads: thread.join()
    return traced.races()
found = main()
print(*sorted(race.thing for race in found.races))
print(*(f"{one.what} at {one.place}" for one in found.passed_over), sep="\\n")
"""
GENERIC = """
import threading, itc_trace
count = {"n": 0}
with itc_trace.tracing() as traced:
    def local[T](one: T) -> T: count["n"] += 1
    class Late[T]:
        def run(self): count["m"] = count.get("m", 0) + 1
    threads = [threading.Thread(target=one, args=words) for one, words in ((local, (1,)), (Late().run, ())) for _ in range(2)]
    for thread in threads: thread.start()
    for thread in threads: thread.join()
print(*sorted(race.thing for race in traced.races().races))
"""


class Earlier(ProgramCase):
    maxDiff = None

    def told(self, text: str, hooks: str, *words: str) -> str:
        ran = run_python(self.program(text), *words, ITC_TRACE_PURE=FORMS[hooks])
        self.assertEqual(ran.returncode, 0, ran.stderr)
        self.assertEqual(ran.stderr, "")
        return ran.stdout

    def test_locks_that_were_made_before_give_order(self) -> None:
        for hooks in FORMS:
            with self.subTest(hooks):
                self.assertEqual(self.told(LOCKS, hooks), "data['two permits']\n\n")

    def test_what_cannot_be_followed_makes_the_run_incomplete(self) -> None:
        made = "".join(f"what {one} orders was not seen: it was made before tracing began\n" for one in WAYS_AROUND)
        held = "".join(
            f"what {one} encloses was not all seen: it was held as tracing began\n" for one in ("Lock held", "RLock again_held"))
        told = self.told(NOT_FOLLOWED, "in C").split("INCOMPLETE\n")
        self.assertEqual([sorted(one.splitlines()) for one in told], [[], sorted((made + held).splitlines()), sorted(made.splitlines())])

    def test_they_do_what_they_did(self) -> None:
        """Also for a thread that waits already, and what the frames of the program hold goes as it went."""
        plain = self.told(WAITING, "in C")
        for hooks in FORMS:
            with self.subTest(hooks):
                self.assertEqual(self.told(WAITING, hooks, "traced"), plain)

    def test_what_is_defined_behind_the_first_block_has_hooks(self) -> None:
        behind = " ".join(f"count['{one}']" for one in ("closure", "function", "inner", "method", "of_class"))
        last = LATER.splitlines().index("with itc_trace.tracing() as traced:") + 1
        in_block = " ".join(f"count['{one}']" for one in ("coroutine", "generator", "within"))
        for hooks in FORMS:
            with self.subTest(hooks):
                self.assertEqual(
                    self.told(LATER, hooks).splitlines(),
                    [f"{behind} other", in_block, "count['local']", f"code that ran already at program.py:{last}"],
                )

    def test_what_running_code_defines_has_hooks_and_the_code_itself_is_told(self) -> None:
        for hooks in FORMS:
            with self.subTest(hooks):
                self.assertEqual(
                    self.told(NESTED_FIRST, hooks).splitlines(),
                    ["count['m'] count['n']", "code that ran already at program.py:5", "code that ran already at program.py:13"],
                )

    if sys.version_info >= (3, 12):  # Earlier ones have no generic functions.

        def test_generic_functions_and_classes(self) -> None:
            self.assertEqual(self.told(GENERIC, "in C"), "count['m'] count['n']\n")


if __name__ == "__main__":
    unittest.main()
