"""Small programs whose race is hidden in one order of their two tasks, by a hand-over that the program did not mean.

`first` changes something and hands something over, and `second` takes that and looks. If `second` comes first, nothing
orders the two. So a tool that does not live by luck tells of the pair in both orders: as a race, as a possible one, or
among those that are counted. `python3 -m tests.by_luck` runs all in both orders, and prints which pairs it does not tell.
"""

from __future__ import annotations

import json
import sys
from typing import NamedTuple

from itc_trace import Races
from itc_trace.analyse.races import Race

from .constructs import Construct, place_in
from .pairs import Pair, races_of

BEGIN = """\
import contextlib, functools, queue, threading, time
class Shop: pass
shop = Shop()
shop.left = 5
"""
CHANGE, LOOK = "shop.left -= 1  # race", "shop.left  # race"

LOCKS = """
## a lock
guard = threading.Lock()
def first():
    CHANGE
    with guard: pass
def second():
    with guard: pass
    LOOK
## a lock that is acquired again
guard = threading.RLock()
def first():
    CHANGE
    with guard, guard: pass
def second():
    with guard, guard: pass
    LOOK
## the lock of a condition
ready = threading.Condition()
def first():
    CHANGE
    with ready: pass
def second():
    with ready: pass
    LOOK
## a notify that nobody waits for
ready = threading.Condition()
def first():
    CHANGE
    with ready: ready.notify_all()
def second():
    with ready: ready.wait(0.001)
    LOOK
## one of two permits
permits = threading.Semaphore(2)
def first():
    CHANGE
    with permits: pass
    with permits: pass
def second():
    with permits: pass
    LOOK
## the only permit
permit = threading.BoundedSemaphore(1)
def first():
    CHANGE
    with permit: pass
def second():
    with permit: pass
    LOOK
## a lock of the module in C
import _thread
guard = _thread.allocate_lock()
def first():
    CHANGE
    guard.acquire()
    guard.release()
def second():
    guard.acquire()
    guard.release()
    LOOK
## a lock of processes
import multiprocessing
guard = multiprocessing.Lock()
def first():
    CHANGE
    with guard: pass
def second():
    with guard: pass
    LOOK
## a lock of processes that is acquired again
import multiprocessing
guard = multiprocessing.RLock()
def first():
    CHANGE
    with guard: pass
def second():
    with guard: pass
    LOOK
## a lock within a method
class Log:
    def __init__(self): self.guard, self.lines = threading.Lock(), []
    def tell(self, line):
        with self.guard: self.lines.append(line)
log = Log()
def first():
    CHANGE
    log.tell("first")
def second():
    log.tell("second")
    LOOK
## a list under a lock in place of a queue
waiting, guard = [], threading.Lock()
def first():
    CHANGE
    with guard: waiting.append(1)
def second():
    with guard:
        if waiting: waiting.pop()
    LOOK
## a lock that is waited for only so long
guard = threading.Lock()
def first():
    CHANGE
    if guard.acquire(timeout=1): guard.release()
def second():
    if guard.acquire(timeout=1): guard.release()
    LOOK
## a lock that is tried
guard = threading.Lock()
def first():
    CHANGE
    if guard.acquire(False): guard.release()
def second():
    if guard.acquire(blocking=False): guard.release()
    LOOK
## a lock on a stack of contexts
guard = threading.Lock()
def enter():
    with contextlib.ExitStack() as stack: stack.enter_context(guard)
def first():
    CHANGE
    enter()
def second():
    enter()
    LOOK
## a lock that a decorator holds
guard = threading.Lock()
def alone(function):
    @functools.wraps(function)
    def run():
        with guard: return function()
    return run
@alone
def tick(): return 1
def first():
    CHANGE
    tick()
def second():
    tick()
    LOOK
## a lock for each key
locks = {"a": threading.Lock()}
def first():
    CHANGE
    with locks["a"]: pass
def second():
    with locks["a"]: pass
    LOOK
## a lock that a generator holds
guard = threading.Lock()
@contextlib.contextmanager
def held():
    with guard: yield
def first():
    CHANGE
    with held(): pass
def second():
    with held(): pass
    LOOK
## a lock of readers and writers
ready, readers = threading.Condition(), [0]
@contextlib.contextmanager
def reading():
    with ready: readers[0] += 1
    yield
    with ready:
        readers[0] -= 1
        ready.notify_all()
def first():
    CHANGE
    with reading(): pass
def second():
    with reading(): pass
    LOOK
## a class with a lock as a context
class Guard:
    def __init__(self): self.inner = threading.Lock()
    def __enter__(self): self.inner.acquire()
    def __exit__(self, *fault): self.inner.release()
guard = Guard()
def first():
    CHANGE
    with guard: pass
def second():
    with guard: pass
    LOOK
## a lock beside another one that the change is under
guard, log = threading.Lock(), threading.Lock()
def first():
    with guard:
        CHANGE
    with log: pass
def second():
    with log: pass
    LOOK
## a lock beside another one that the look is under
guard, log = threading.Lock(), threading.Lock()
def first():
    CHANGE
    with log: pass
def second():
    with log: pass
    with guard:
        LOOK
## two locks, and a third thread between them
one, other = threading.Lock(), threading.Lock()
def between():
    with one: pass
    with other: pass
def first():
    CHANGE
    with one: pass
def second():
    helper = threading.Thread(target=between)
    helper.start()
    helper.join()
    with other: pass
    LOOK
## a lock around what starts and joins another thread
guard = threading.Lock()
def first():
    helper = threading.Thread(target=change)
    helper.start()
    helper.join()
    with guard: pass
def change():
    CHANGE
def second():
    with guard: pass
    LOOK
## a counter under a lock
guard, numbers = threading.Lock(), [0]
def next_number():
    with guard:
        numbers[0] += 1
        return numbers[0]
def first():
    CHANGE
    next_number()
def second():
    next_number()
    LOOK
## a lock in the order of a module of the library
import sched
plan = sched.scheduler()
def first():
    CHANGE
    plan.empty()
def second():
    plan.empty()
    LOOK
## a lock of a jar of cookies
import http.cookiejar
jar = http.cookiejar.CookieJar()
def first():
    CHANGE
    jar.clear_expired_cookies()
def second():
    jar.clear_expired_cookies()
    LOOK
## a lock of how times are read
def first():
    CHANGE
    time.strptime("1", "%d")
def second():
    time.strptime("1", "%d")
    LOOK
## a thread that is asked for whether it is at work
import sys
def change():
    CHANGE
worker = threading.Thread(target=change)
def first():
    worker.start()
    while worker.ident in sys._current_frames(): time.sleep(0.001)
def second():
    told = "at work" if worker.is_alive() else "over"
    LOOK
## a field, an element and a length at once
guard, table, rows = threading.Lock(), {"a": 1}, []
def first():
    table["a"] = 2  # race
    rows.append(1)  # race
    CHANGE
    with guard: pass
def second():
    with guard: pass
    table["a"]  # race
    len(rows)  # race
    LOOK
## the lock that a queue has itself
jobs = queue.Queue()
def first():
    CHANGE
    with jobs.mutex: jobs.queue.clear()
def second():
    with jobs.mutex: jobs.queue.clear()
    LOOK
## the lock of a queue in which something lies
jobs = queue.Queue()
def first():
    CHANGE
    jobs.put(1)
def second():
    with jobs.mutex: len(jobs.queue)
    LOOK
## a condition that a queue has itself
jobs = queue.PriorityQueue()
def first():
    CHANGE
    with jobs.not_empty: jobs.not_empty.notify_all()
def second():
    with jobs.not_empty: jobs.not_empty.notify_all()
    LOOK
## a permit that is waited for only so long
done = threading.Semaphore(0)
def first():
    CHANGE
    done.release()
def second():
    done.acquire(timeout=0.001)
    LOOK
## a permit that somebody else gives, too
done = threading.Semaphore(0)
def first():
    CHANGE
    done.release()
def second():
    other = threading.Thread(target=done.release)
    other.start()
    done.acquire()
    other.join()
    LOOK
## two permits that three give
done = threading.Semaphore(0)
def first():
    CHANGE
    done.release()
def second():
    done.release()
    other = threading.Thread(target=done.release)
    other.start()
    done.acquire()
    done.acquire()
    other.join()
    LOOK
## a permit that its task might have taken from those that were there
permits = threading.Semaphore(2)
def first():
    CHANGE
    permits.acquire()
    permits.release()
    permits.acquire()
def second():
    permits.acquire()
    LOOK
## a permit of three, two of which are given at once
done = threading.Semaphore(0)
def first():
    CHANGE
    done.release()
def second():
    other = threading.Thread(target=done.release, args=(2,))
    other.start()
    done.acquire()
    done.acquire()
    other.join()
    LOOK
## a permit of a pool of permits that grows
permits = threading.Semaphore(1)
def first():
    CHANGE
    permits.release()
def second():
    permits.acquire()
    permits.acquire(timeout=0.001)
    LOOK
"""
"""Each pair is told in both orders."""

ASKED = """
## an event that is asked for
done = threading.Event()
def first():
    CHANGE
    done.set()
def second():
    told = "done" if done.is_set() else "at work"
    LOOK
## an event that is asked for, and left alone
done = threading.Event()
def first():
    CHANGE
    done.set()
def second():
    if done.is_set(): print(end="")
    LOOK
## an event that is asked for by a function, which nobody asks
done = threading.Event()
def ready(): return done.is_set()
def first():
    CHANGE
    done.set()
def second():
    ready()
    LOOK
## an event that is asked for beside something else
done = threading.Event()
def first():
    CHANGE
    done.set()
def second():
    if done.is_set() or shop is not None:
        LOOK
## an event that is asked for by a loop that may be left before
done = threading.Event()
def first():
    CHANGE
    done.set()
def second():
    for _ in range(3):
        if done.is_set(): break
    LOOK
## an event that is asked for in a block that passes over a fault
done = threading.Event()
def first():
    CHANGE
    done.set()
def second():
    with contextlib.suppress(LookupError):
        if not done.is_set(): raise LookupError
    LOOK
## an event that is asked for at last
done = threading.Event()
def first():
    CHANGE
    done.set()
def second():
    try:
        if not done.is_set(): return
    finally:
        LOOK
## an event that is asked for, and a thread that is started in any case
done = threading.Event()
def look():
    LOOK
def first():
    CHANGE
    done.set()
def second():
    print("done" if done.is_set() else "", end="")
    looker = threading.Thread(target=look)
    looker.start()
    looker.join()
## who is told no waits for something else
done, other = threading.Event(), threading.Event()
def first():
    CHANGE
    other.set()
    done.set()
def second():
    if not done.is_set(): other.is_set()
    LOOK
## who is told no waits for so long
done = threading.Event()
def first():
    CHANGE
    done.set()
def second():
    if not done.is_set(): done.wait(0.001)
    LOOK
## an answer that is kept, and changed
done = threading.Event()
def first():
    CHANGE
    done.set()
def second():
    is_done = done.is_set()
    is_done = True
    if is_done:
        LOOK
## an event that is waited for only so long
done = threading.Event()
def first():
    CHANGE
    done.set()
def second():
    done.wait(0.001)
    LOOK
## a thread that is joined only so long
def change():
    CHANGE
worker = threading.Thread(target=change)
def first():
    worker.start()
    worker.join()
def second():
    if worker.ident: worker.join(0.001)
    LOOK
## threads of which those are counted that are over
def change():
    CHANGE
worker = threading.Thread(target=change)
def first():
    worker.start()
    worker.join()
def second():
    len([one for one in [worker] if one.ident and not one.is_alive()])
    LOOK
## a future that is asked for
from concurrent.futures import Future
done = Future()
def first():
    CHANGE
    done.set_result(1)
def second():
    told = "done" if done.done() else "at work"
    LOOK
## a future that was cancelled
from concurrent.futures import Future
done = Future()
def first():
    CHANGE
    done.cancel()
def second():
    told = "gone" if done.cancelled() else "at work"
    LOOK
## a callback that is added to a future, which may be done
from concurrent.futures import Future
done = Future()
def first():
    CHANGE
    done.set_result(1)
def second():
    done.add_done_callback(lambda future: None)
    LOOK
## a callback that may be called at once, by who has added it
from concurrent.futures import Future
done = Future()
def change(future):
    CHANGE
def first():
    done.set_result(1)
def second():
    done.add_done_callback(change)
    LOOK
## a future that is waited for only so long
from concurrent.futures import Future, wait
done = Future()
def first():
    CHANGE
    done.set_result(1)
def second():
    wait([done], timeout=0.001)
    LOOK
## a result that is waited for only so long
from concurrent.futures import Future
done = Future()
def first():
    CHANGE
    done.set_result(1)
def second():
    with contextlib.suppress(TimeoutError): done.result(0.001)
    LOOK
## a timer that is asked for
timer = threading.Timer(0, print, kwargs={"end": ""})
def first():
    CHANGE
    timer.cancel()
def second():
    told = timer.finished.is_set()
    LOOK
## a predicate that asks for an event, and is waited for only so long
done, ready = threading.Event(), threading.Condition()
def first():
    CHANGE
    done.set()
def second():
    with ready: ready.wait_for(lambda: done.is_set(), timeout=0.001)
    LOOK
"""
"""Each pair is told in both orders: whoever asks goes on in any case."""

POLLS = """
## a queue that may be empty
jobs = queue.Queue()
def first():
    CHANGE
    jobs.put(1)
def second():
    with contextlib.suppress(queue.Empty): jobs.get_nowait()
    LOOK
## a queue that is waited for only so long
jobs = queue.SimpleQueue()
def first():
    CHANGE
    jobs.put(1)
def second():
    with contextlib.suppress(queue.Empty): jobs.get(timeout=0.001)
    LOOK
## a queue whose items are done already
jobs = queue.Queue()
def first():
    CHANGE
    jobs.put(1)
    jobs.get()
    jobs.task_done()
def second():
    jobs.join()
    LOOK
## a value that whoever comes first computes
class Table:
    @functools.cached_property
    def total(self): return 3
table = Table()
def first():
    CHANGE
    table.total
def second():
    table.total
    LOOK
## a module that whoever comes first executes
import sys
sys.modules.pop("colorsys", None)
def first():
    CHANGE
    import colorsys
def second():
    import colorsys
    LOOK
"""
"""A pair is told if nothing was handed over. What was taken, and was there, gives an order that is taken for meant."""

ANSWERED = """
## only a yes leads there
done = threading.Event()
def first():
    shop.left -= 1
    done.set()
def second():
    if done.is_set(): shop.left
## a no leaves before
done = threading.Event()
def first():
    shop.left -= 1
    done.set()
def second():
    if not done.is_set(): return
    shop.left
## a loop goes on as long as the answer is no
done = threading.Event()
def first():
    shop.left -= 1
    done.set()
def second():
    while not done.is_set(): time.sleep(0.001)
    shop.left
## a loop is left by a yes alone
done = threading.Event()
def first():
    shop.left -= 1
    done.set()
def second():
    while True:
        if done.is_set(): break
        time.sleep(0.001)
    shop.left
## the answer is kept in a variable
done = threading.Event()
def first():
    shop.left -= 1
    done.set()
def second():
    is_done = done.is_set()
    print(end="")
    if is_done: shop.left
## a function gives the answer back
done = threading.Event()
def is_busy(): return not done.is_set()
def first():
    shop.left -= 1
    done.set()
def second():
    if is_busy(): return
    shop.left
## a property gives the answer back
class Job:
    def __init__(self): self.event = threading.Event()
    @property
    def done(self): return self.event.is_set()
job = Job()
def first():
    shop.left -= 1
    job.event.set()
def second():
    if job.done: shop.left
## a function comes back behind a yes alone
done = threading.Event()
def until_done():
    while not done.is_set(): time.sleep(0.001)
def first():
    shop.left -= 1
    done.set()
def second():
    until_done()
    shop.left
## a function is called behind a yes
done = threading.Event()
def look(): deeper()
def deeper(): shop.left
def first():
    shop.left -= 1
    done.set()
def second():
    if done.is_set(): look()
## a thread is started behind a yes
done = threading.Event()
def look(): shop.left
def first():
    shop.left -= 1
    done.set()
def second():
    if done.is_set():
        looker = threading.Thread(target=look)
        looker.start()
        looker.join()
## who waits for so long looks at the answer
done = threading.Event()
def first():
    shop.left -= 1
    done.set()
def second():
    assert done.wait(timeout=1)
    shop.left
## a thread is joined for so long, and asked then
def change(): shop.left -= 1
worker = threading.Thread(target=change)
def first():
    worker.start()
    worker.join()
def second():
    worker.join(1)
    if worker.is_alive(): raise TimeoutError
    shop.left
## all of several threads are over
def change(): shop.left -= 1
workers = [threading.Thread(target=change)]
def first():
    for worker in workers: worker.start()
    for worker in workers: worker.join()
def second():
    while any(worker.is_alive() for worker in workers): time.sleep(0.001)
    shop.left
## each of several futures is done
from concurrent.futures import Future
jobs = [Future()]
def first():
    shop.left -= 1
    jobs[0].set_result(1)
def second():
    for job in jobs:
        while not job.done(): time.sleep(0.001)
    shop.left
## the result is taken once it is there
from concurrent.futures import Future
done = Future()
def first():
    shop.left -= 1
    done.set_result(1)
def second():
    try: done.result(timeout=1)
    except TimeoutError: return
    shop.left
## who is told no waits
done = threading.Event()
def first():
    shop.left -= 1
    done.set()
def second():
    if not done.is_set(): done.wait()
    shop.left
## who is told no joins
def change(): shop.left -= 1
worker = threading.Thread(target=change)
def first():
    worker.start()
    worker.join()
def is_over(): return not worker.is_alive()
def second():
    if not is_over(): worker.join()
    shop.left
## what was asked for is waited for in the end
done = threading.Event()
def first():
    shop.left -= 1
    done.set()
def second():
    done.is_set()
    done.wait()
    shop.left
## a thread that was asked for is joined in the end
def change(): shop.left -= 1
worker = threading.Thread(target=change)
def first():
    worker.start()
    worker.join()
def second():
    worker.is_alive(), worker.is_alive()
    worker.join()
    shop.left
## a future that was asked for is taken in the end
from concurrent.futures import Future, wait
done = Future()
def first():
    shop.left -= 1
    done.set_result(1)
def second():
    wait([done], timeout=1)
    done.result()
    shop.left
## a callback is added to a future whose result was taken
from concurrent.futures import Future
done = Future()
def change(future): shop.left -= 1
def first():
    shop.left -= 1
    done.set_result(1)
def second():
    done.result()
    done.add_done_callback(change)
    shop.left
## a callback is added behind an event that tells of the result
from concurrent.futures import Future
done, told = Future(), threading.Event()
def change(future): shop.left -= 1
def first():
    shop.left -= 1
    done.set_result(1)
    told.set()
def second():
    told.wait()
    done.add_done_callback(change)
    shop.left
## a callback is added by who has given the result
from concurrent.futures import Future
def change(future): shop.left -= 1
def first(): pass
def second():
    done = Future()
    done.set_result(1)
    done.add_done_callback(change)
    shop.left
## a permit that stands for what was done
done = threading.Semaphore(0)
def first():
    shop.left -= 1
    done.release()
def second():
    done.acquire()
    shop.left
## permits of all who have done something
done, shop.right = threading.Semaphore(0), 1
def change(name):
    setattr(shop, name, 2)
    done.release()
workers = [threading.Thread(target=change, args=(name,)) for name in ("left", "right")]
def first():
    for worker in workers: worker.start()
def second():
    for worker in workers: done.acquire()
    shop.left, shop.right
## a permit for each item
done, cells = threading.Semaphore(0), [0, 0, 0]
def first():
    for place in range(3):
        cells[place] += 1
        done.release()
def second():
    for place in range(3):
        done.acquire()
        cells[place]
## permits that are given at once, for several who wait
done = threading.Semaphore(0)
def look():
    done.acquire()
    shop.left
def first():
    shop.left -= 1
    done.release(2)
def second():
    lookers = [threading.Thread(target=look) for _ in range(2)]
    for looker in lookers: looker.start()
    for looker in lookers: looker.join()
## one permit more than were there
permits = threading.Semaphore(2)
def first():
    shop.left -= 1
    permits.release()
def second():
    permits.acquire()
    permits.acquire()
    permits.acquire()
    shop.left
"""
"""Nothing is told or counted: what looks is behind a yes, or behind a permit that nobody else could have given."""

MEANT = """
## whoever comes later has waited for the flag
guard, done = threading.Lock(), []
def first():
    shop.left -= 1
    with guard: done.append(1)
def second():
    while True:
        with guard:
            if done: break
        time.sleep(0.001)
    shop.left
## an event that is waited for
done = threading.Event()
def first():
    shop.left -= 1
    done.set()
def second():
    done.wait()
    shop.left
## a queue that is waited for
jobs = queue.Queue()
def first():
    shop.left -= 1
    jobs.put(1)
def second():
    jobs.get()
    shop.left
## one lock around both
guard = threading.Lock()
def first():
    with guard: shop.left -= 1
def second():
    with guard: shop.left
## a lock that another thread lets go of
gate = threading.Lock()
gate.acquire()
def first():
    shop.left -= 1
    gate.release()
def second():
    gate.acquire()
    shop.left
## a future whose result is taken
from concurrent.futures import Future
done = Future()
def first():
    shop.left -= 1
    done.set_result(1)
def second():
    done.result()
    shop.left
## a condition that is waited for until it holds
ready, done = threading.Condition(), []
def first():
    shop.left -= 1
    with ready:
        done.append(1)
        ready.notify()
def second():
    with ready: ready.wait_for(lambda: done)
    shop.left
"""
"""No race is told: `second` goes on only behind `first`."""

ORDERS = {"as hidden": ("first", "second"), "the other way": ("second", "first")}


def programs(text: str) -> list[Construct]:
    """The programs of a table."""
    parts = [part.partition("\n") for part in text.split("\n## ")[1:]]
    return [
        Construct("luck", name, BEGIN + source.replace("CHANGE", CHANGE).replace("LOOK", LOOK)) for name, _, source in parts
    ]


class Found(NamedTuple):
    """What a run in one order has told."""

    untold: list[str]
    """Programs of which not all marked lines are told."""
    further: list[str]
    """Programs of which other lines are told."""
    races: list[str]
    """Programs of which a race is told that is not only a possible one."""
    faults: dict[str, str]


def found_in(chosen: list[Construct], order: str) -> Found:
    """Runs programs in one order."""
    faults: dict[str, str] = {}
    pairs: list[Pair] = chosen  # type: ignore[assignment]  # A program has its text as a pair has.
    _, races = races_of(pairs, "", faults, ORDERS[order])
    told = {number: _lines(number, [*races.races, *races.possible, *races.hidden]) for number in range(len(chosen))}
    of_races = {number for number in told if _lines(number, races.races)}
    return Found(
        [one.name for number, one in enumerate(chosen) if one.due.lines - told[number]],
        [one.name for number, one in enumerate(chosen) if told[number] - one.due.lines],
        [chosen[number].name for number in sorted(of_races)],
        {chosen[int(name.removeprefix("pair_"))].name: fault for name, fault in faults.items()},
    )


def _lines(number: int, races: Races | list[Race]) -> set[int]:
    places = [[place_in(side.place) for side in race.sides] for race in races]
    return {place[1] for both in places for place in both if None not in both and {one[0] for one in both if one} == {number} if place}


def answers() -> dict[str, dict[str, Found]]:
    """What is told of each table, in each order."""
    tables = {"locks": programs(LOCKS), "asked": programs(ASKED), "polls": programs(POLLS)}
    found = {name: {order: found_in(chosen, order) for order in ORDERS} for name, chosen in tables.items()}
    in_order = {"answered": ANSWERED, "meant": MEANT}
    return {**found, **{name: {"as hidden": found_in(programs(text), "as hidden")} for name, text in in_order.items()}}


if __name__ == "__main__":
    answered = {name: {order: found._asdict() for order, found in orders.items()} for name, orders in answers().items()}
    print("", json.dumps(answered, indent=1 if sys.stdout.isatty() else None), sep="\n")
