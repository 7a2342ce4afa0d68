"""Small programs that synchronize without the obvious lock, each with a twin in which one thing is wrong.

`run` starts what the program has, and waits for it. Nothing is told of the program as it stands. Behind `--` stands what
is told of its twin, and how the twin reads: `old => new`. The lines with `# race` are the sides of what is told. No other
line is. `python3 -m tests.in_order` runs all, and prints which have another answer.
"""

from __future__ import annotations

import json
import sys
from typing import NamedTuple

from .as_written import AS_WRITTEN
from .constructs import Construct, lines_told
from .pairs import Pair, races_of
from .queues_looked_into import QUEUES_LOOKED_INTO

BEGIN = """\
import asyncio, collections, contextlib, functools, queue, threading, time, weakref
from concurrent.futures import FIRST_COMPLETED, Future, ThreadPoolExecutor, as_completed, wait
class Box:
    def __init__(self): self.n = 0
def together(*works):
    threads = [threading.Thread(target=work) for work in works]
    for thread in threads: thread.start()
    for thread in threads: thread.join()
async def turn(): await asyncio.sleep(0)
"""

QUEUES = r"""
## a box is filled before it goes through a queue without limits
jobs = queue.SimpleQueue()
def give():
    for number in range(3):
        box = Box()
        box.n = number
        jobs.put(box)
    jobs.put(None)
def take():
    for box in iter(jobs.get, None): box.n += 1  # race
def run(): together(give, take)
-- race
jobs.put(box) => jobs.put(box); box.n = 0  # race
## boxes lie on a stack
class Job:
    def __init__(self): self.left = 2
stack = queue.LifoQueue()
for _ in range(2): stack.put(Job())
def work():
    for _ in range(2):
        job = stack.get()
        job.left -= 1  # race
        stack.put(job)
def run(): together(work, work)
-- race
job.left -= 1  # race\n        stack.put(job) => stack.put(job)\n        job.left -= 1  # race
range(2): stack => range(1): stack
## what jobs have found is read behind the join of their queue
jobs, found = queue.PriorityQueue(), [0, 0, 0]
def work():
    while True:
        level, place = jobs.get()
        if place is None: break
        found[place] = level  # race
        jobs.task_done()
def run():
    workers = [threading.Thread(target=work) for _ in range(2)]
    for worker in workers: worker.start()
    for place in range(3): jobs.put((place, place))
    jobs.join()
    sum(found)  # race
    for _ in workers: jobs.put((9, None))
    for worker in workers: worker.join()
-- race
jobs.join() => jobs.empty()
## two threads play ping-pong with one score
there, back, score = queue.Queue(), queue.Queue(), Box()
def serve():
    for _ in range(3):
        score.n += 1  # race
        there.put("ball")
        back.get()
def reply():
    for _ in range(3):
        there.get()
        score.n += 1  # race
        back.put("ball")
def run(): together(serve, reply)
-- race
score.n += 1  # race\n        back.put("ball") => back.put("ball")\n        score.n += 1  # race
## a token goes around, and whoever has it writes
doors, log = [queue.Queue() for _ in range(3)], {"last": 0}
def member(place):
    for _ in range(2):
        doors[place].get()
        log["last"] = place  # race
        doors[(place + 1) % 3].put("token")
def run():
    doors[0].put("token")
    together(*(functools.partial(member, place) for place in range(3)))
-- race
doors[0].put("token") => for door in doors: door.put("token")
## buffers are borrowed from a queue and given back
class Buffer:
    def __init__(self): self.text = ""
free = queue.Queue()
free.put(Buffer())
def write():
    buffer = free.get()
    buffer.text += "a"  # race
    free.put(buffer)
def run(): together(write, write, write)
-- race
free.put(buffer) => free.put(buffer); buffer.text = ""  # race
## two threads exchange what they have filled
here, there = queue.Queue(1), queue.Queue(1)
def left():
    mine = [1]
    here.put(mine)
    there.get().append(3)
def right():
    other = [2]
    there.put(other)
    here.get().append(4)  # race
def run(): together(left, right)
-- race
here.put(mine) => here.put(mine); mine.clear()  # race
## an actor alone has the state, and answers by futures
class Counter:
    def __init__(self):
        self.total, self.mail = 0, queue.Queue()
        self.thread = threading.Thread(target=self.serve)
        self.thread.start()
    def serve(self):
        for amount, answer in iter(self.mail.get, None):
            self.total += amount  # race
            answer.set_result(self.total)  # race
    def add(self, amount):
        answer = Future()
        self.mail.put((amount, answer))
        return answer.result()
    def close(self):
        self.mail.put(None)
        self.thread.join()
def run():
    counter = Counter()
    together(lambda: counter.add(1), lambda: counter.add(2))
    counter.close()
    counter.total
-- race
return answer.result() => self.total -= 1  # race
## an iterator goes from thread to thread, and one steps it at a time
turns = queue.Queue()
turns.put(zip(range(9), "abcdefghi"))
def work():
    for _ in range(3):
        steps = turns.get()
        next(steps)  # race
        turns.put(steps)
def run(): together(work, work)
-- race
next(steps)  # race\n        turns.put(steps) => turns.put(steps)\n        next(steps)  # race
## a generator goes from thread to thread with what it counts
seen = Box()
def numbers():
    for number in range(9):
        seen.n = number  # race
        yield number
turns = queue.Queue()
turns.put(numbers())
def work():
    for _ in range(3):
        steps = turns.get()
        next(steps)
        turns.put(steps)
def run(): together(work, work)
-- race
turns.put(steps) => turns.put(steps); seen.n = 0  # race
## subscribers have a queue each, and the message is theirs
class Topic:
    def __init__(self): self.doors, self.guard = [], threading.Lock()
    def subscribe(self):
        door = queue.Queue()
        with self.guard: self.doors.append(door)
        return door
    def publish(self, text):
        with self.guard:
            for door in self.doors: door.put({"text": text})
topic, shared = Topic(), {"text": ""}
def follow(door):
    message = door.get()
    message["seen"] = True  # race
    len(message)  # race
def run():
    doors = [topic.subscribe() for _ in range(2)]
    threads = [threading.Thread(target=follow, args=(door,)) for door in doors]
    for thread in threads: thread.start()
    topic.publish("a")
    for thread in threads: thread.join()
-- race
{"text": text} => shared
## a queue of the library is a base, and counts under its lock
class Counted(queue.Queue):
    def _init(self, size):
        super()._init(size)
        self.most = 0
    def _put(self, item):
        super()._put(item)
        self.most = max(self.most, len(self.queue))  # race
    def highest(self):
        with self.mutex: return self.most  # race
def run():
    jobs = Counted()
    def give():
        for number in range(3): jobs.put(number)
    def take():
        for _ in range(3): jobs.get()
    together(give, take, jobs.highest)
-- race
with self.mutex: return => return
## a loop over sockets is woken by one, and finds its job in a queue
import selectors, socket
def run():
    jobs, seen, (here, there) = queue.SimpleQueue(), [], socket.socketpair()
    def serve():
        with selectors.DefaultSelector() as ears:
            ears.register(there, selectors.EVENT_READ)
            while "end" not in seen:
                for key, _ in ears.select(5):
                    key.fileobj.recv(1)
                    seen.append(jobs.get()["name"])  # race
    server = threading.Thread(target=serve)
    server.start()
    for name in ("first", "end"):
        job = {}
        job["name"] = name
        jobs.put(job)
        here.send(b"x")
    server.join()
    here.close(), there.close()
-- race
jobs.put(job) => jobs.put(job); job.update(name=name)  # race
## rows go on from one stage to the next, and are read at the end
first, second, done = queue.Queue(), queue.Queue(), []
def parse():
    for text in iter(first.get, None): second.put({"text": text, "size": 0})
    second.put(None)
def measure():
    for row in iter(second.get, None):
        row["size"] = len(row["text"])
        done.append(row)  # race
def run():
    threads = [threading.Thread(target=work) for work in (parse, measure)]
    for thread in threads: thread.start()
    for text in ("a", "bc", None): first.put(text)
    for thread in threads: thread.join()
    len(done)  # race
-- race
thread in threads: thread.join() => thread in threads: thread.is_alive()
## a worker is asked by a queue that it makes room in
slot, table = queue.Queue(1), {}
def work():
    for key in iter(slot.get, None): table[key] = len(table)  # race
def run():
    worker = threading.Thread(target=work)
    worker.start()
    for key in "abc": slot.put(key)
    slot.put(None)
    worker.join()
    sorted(table)  # race
-- race
slot.put(None)\n    worker.join()\n    sorted(table)  # race => sorted(table)  # race\n    slot.put(None)\n    worker.join()
"""

LOCKS = r"""
## readers and writers by a condition of one's own
class Gate:
    def __init__(self): self.changed, self.readers = threading.Condition(), 0
    @contextlib.contextmanager
    def reading(self):
        with self.changed: self.readers += 1
        try: yield
        finally:
            with self.changed:
                self.readers -= 1
                self.changed.notify_all()
    @contextlib.contextmanager
    def writing(self):
        with self.changed:
            self.changed.wait_for(lambda: not self.readers)
            yield
gate, table = Gate(), {"a": 1}
def write():
    for number in range(2):
        with gate.writing(): table["a"] = number  # race
def read():
    for _ in range(2):
        with gate.reading(): table["a"]  # race
def run(): together(read, write, read, write)
-- race
with gate.writing(): => with contextlib.nullcontext():
## a ticket says whose turn it is
class Tickets:
    def __init__(self): self.changed, self.next, self.served = threading.Condition(), 0, 0
    def __enter__(self):
        with self.changed:
            mine, self.next = self.next, self.next + 1
            self.changed.wait_for(lambda: self.served == mine)
    def __exit__(self, *fault):
        with self.changed:
            self.served += 1
            self.changed.notify_all()
tickets, box = Tickets(), Box()
def work():
    for _ in range(2):
        with tickets: box.n += 1  # race
def run(): together(work, work, work)
-- race
with tickets: => if tickets:
## a ring has a permit for each place and for each item
free, full, ring = threading.Semaphore(2), threading.Semaphore(0), [None, None]
def give():
    for number in range(4):
        free.acquire()
        ring[number % 2] = number  # race
        full.release()
def take():
    for number in range(4):
        full.acquire()
        ring[number % 2] = None  # race
        free.release()
def run(): together(give, take)
-- race
ring[number % 2] = number  # race\n        full.release() => full.release()\n        ring[number % 2] = number  # race
## a buffer has permits and a lock, and two give
free, full, guard, items = threading.Semaphore(2), threading.Semaphore(0), threading.Lock(), []
def give():
    for number in range(3):
        free.acquire()
        with guard: items.append(number)  # race
        full.release()
def take():
    for _ in range(6):
        full.acquire()
        with guard: items.pop(0)  # race
        free.release()
def run(): together(give, give, take)
-- race
with guard: items.pop(0) => if guard: items.pop(0)
## a monitor has two conditions of one lock
class Store:
    def __init__(self):
        self.lock, self.rows = threading.Lock(), []
        self.has_room, self.has_rows = threading.Condition(self.lock), threading.Condition(self.lock)
    def put(self, row):
        with self.has_room:
            self.has_room.wait_for(lambda: len(self.rows) < 2)
            self.rows.append(row)  # race
            self.has_rows.notify()
    def get(self):
        with self.has_rows:
            self.has_rows.wait_for(lambda: self.rows)
            row = self.rows.pop(0)  # race
            self.has_room.notify()
            return row
    def size(self):
        with self.lock: return len(self.rows)  # race
def run():
    store = Store()
    def give():
        for number in range(4): store.put(number)
    def take():
        for _ in range(4): store.get()
    together(give, take, store.size)
-- race
with self.lock: return => return
## a latch opens once all have arrived
class Latch:
    def __init__(self, left): self.guard, self.left, self.opened = threading.Lock(), left, threading.Event()
    def arrive(self):
        with self.guard:
            self.left -= 1
            if self.left: return
        self.opened.set()
def run():
    latch, found = Latch(2), {}
    def work(place):
        found[place] = place * 2  # race
        latch.arrive()
    def look():
        latch.opened.wait()
        sum(found.values())  # race
    together(look, lambda: work(1), lambda: work(2))
-- race
latch.opened.wait() => latch.opened.is_set()
## each thread has its cells, and looks at its neighbours in the next phase
cells, others, phase = [1, 2, 3], [0, 0, 0], threading.Barrier(3)
def work(place):
    for _ in range(2):
        others[place] = cells[place - 1] + cells[place]  # race
        phase.wait()
        cells[place] = others[place]  # race
        phase.wait()
def run(): together(*(functools.partial(work, place) for place in range(3)))
-- race
phase.wait()\n        cells => cells
## whoever is the leader of a barrier sums up what all have done
parts, total, met = [0, 0], Box(), threading.Barrier(2)
def work(place):
    parts[place] = place + 1  # race
    if met.wait() == 0: total.n = sum(parts)  # race
    met.wait()
    total.n  # race
def run(): together(lambda: work(0), lambda: work(1))
-- race
    met.wait()\n    total => \n    total
## a generation counts who has gone through a gate
class Rounds:
    def __init__(self, size): self.changed, self.size, self.here, self.round = threading.Condition(), size, 0, 0
    def meet(self):
        with self.changed:
            mine, self.here = self.round, self.here + 1
            if self.here == self.size:
                self.round, self.here = self.round + 1, 0
                self.changed.notify_all()
            else:
                self.changed.wait_for(lambda: self.round != mine)
rounds, names = Rounds(2), {}
def work(name, other):
    names[name] = 1  # race
    rounds.meet()
    names[other]  # race
def run():
    names.update(a=0, b=0)
    together(lambda: work("a", "b"), lambda: work("b", "a"))
-- race
names[name] = 1  # race\n    rounds.meet() => rounds.meet()\n    names[name] = 1  # race
## an account is known by its lock, and two are taken in order
class Account:
    def __init__(self, number): self.number, self.lock, self.left = number, threading.Lock(), 9
one, other = Account(1), Account(2)
def move(giver, taker):
    with contextlib.ExitStack() as stack:
        for account in sorted((giver, taker), key=lambda account: account.number): stack.enter_context(account.lock)
        giver.left -= 1  # race
        taker.left += 1  # race
def run(): together(lambda: move(one, other), lambda: move(other, one))
-- race
sorted((giver, taker), key=lambda account: account.number) => (giver,)
## a stack of contexts is closed behind the last line
guard, rows = threading.Lock(), []
def work():
    stack = contextlib.ExitStack()
    stack.enter_context(guard)
    with stack:
        rows.append(len(rows))  # race
def run(): together(work, work)
-- race
with stack:\n => stack.close()\n    if stack:\n
## a lock stands in each object of a dataclass
from dataclasses import dataclass, field
@dataclass
class Stock:
    left: int = 5
    guard: threading.Lock = field(default_factory=threading.Lock, repr=False)
    def sell(self):
        with self.guard: self.left -= 1  # race
stock = Stock()
def run(): together(stock.sell, stock.sell)
-- race
with self.guard: => with field(default_factory=threading.Lock).default_factory():
## a decorator takes the lock of the object
def alone(method):
    @functools.wraps(method)
    def call(self, *words):
        with self.guard: return method(self, *words)
    return call
class Stock:
    def __init__(self): self.guard, self.left = threading.RLock(), 5
    @alone
    def sell(self): self.left -= 1  # race
    @alone
    def sell_two(self):
        self.sell()
        self.sell()
stock = Stock()
def run(): together(stock.sell_two, stock.sell)
-- race
with self.guard: return => with threading.RLock(): return
## a lock is held through three methods
class Tree:
    def __init__(self): self.guard, self.rows, self.size = threading.RLock(), {}, 0
    def add(self, name):
        with self.guard:
            if not self.has(name): self.rows[name] = self.count()
    def has(self, name):
        with self.guard: return name in self.rows
    def count(self):
        with self.guard:
            self.size += 1  # race
            return self.size  # race
tree = Tree()
def run(): together(lambda: tree.add("a"), lambda: tree.add("b"), lambda: tree.has("c"))
-- race
with self.guard:\n            if not self.has(name): self.rows[name] = self.count() => count = self.count()\n        with self.guard: self.rows[name] = count
with self.guard:\n            self.size += 1 => if self.guard:\n            self.size += 1
## a value is made once, by whoever comes first
class Once:
    def __init__(self): self.guard, self.is_done = threading.Lock(), False
    def do(self, function):
        with self.guard:
            if not self.is_done:  # race
                function()
                self.is_done = True  # race
once, made = Once(), []
def make(): made.append(len(made))
def work():
    once.do(make)
    made[0]
def run(): together(work, work)
-- race
once.do(make) => if not once.is_done: once.do(make)  # race
## an event says that a value is made, and a lock that it is made once
made, guard, table = threading.Event(), threading.Lock(), {}
def value():
    if not made.is_set():
        with guard:
            if not made.is_set():
                table["value"] = 3  # race
                made.set()
    return table["value"]  # race
def run(): together(value, value, value)
-- race
table["value"] = 3  # race\n                made.set() => made.set()\n                table["value"] = 3  # race
return table["value"] => return table.get("value")
## a snapshot is put in place of the one before, under a lock
class Routes:
    def __init__(self): self.guard, self.rows = threading.Lock(), {"a": 1}
    def add(self, name):
        with self.guard:
            rows = dict(self.rows)
            rows[name] = 2  # race
            self.rows = rows
    def look(self):
        with self.guard: rows = self.rows
        return sorted(rows)  # race
routes = Routes()
def run(): together(lambda: routes.add("b"), routes.look, lambda: routes.add("c"), routes.look)
-- race or possible
rows = dict(self.rows) => rows = self.rows
## the lock of a name is made by whoever asks first
locks, rows = {}, {"a": 0}
def work():
    with locks.setdefault("a", threading.Lock()): rows["a"] += 1  # race
def run(): together(work, work)
-- race
locks.setdefault("a", threading.Lock()) => threading.Lock()
## one semaphore of one permit stands for a lock
permit, box = threading.BoundedSemaphore(1), Box()
def work():
    for _ in range(2):
        with permit: box.n += 1  # race
def run(): together(work, work)
-- race
BoundedSemaphore(1) => BoundedSemaphore(2)
## whoever gets the lock at once works, and the others pass
guard, box = threading.Lock(), Box()
def work():
    for _ in range(3):
        if guard.acquire(blocking=False):
            try: box.n += 1  # race
            finally: guard.release()
def run(): together(work, work)
-- race
if guard.acquire(blocking=False): => guard.acquire(blocking=False) or guard.acquire()\n        if True:
finally: guard.release() => finally: pass
acquire() => locked()
## three work at a round table, with the lower fork first
class Fork:
    def __init__(self): self.lock, self.uses = threading.Lock(), 0
forks = [Fork() for _ in range(3)]
def eat(place):
    one, other = sorted((place, (place + 1) % 3))
    with forks[one].lock, forks[other].lock:
        forks[one].uses += 1  # race
        forks[other].uses += 1  # race
def run(): together(*(functools.partial(eat, place) for place in range(3)))
-- race
with forks[one].lock, forks[other].lock: => with forks[one].lock:
## an iterator takes its own lock at each step
class Numbers:
    def __init__(self): self.guard, self.last = threading.Lock(), 0
    def __iter__(self): return self
    def __next__(self):
        with self.guard:
            if self.last == 6: raise StopIteration  # race
            self.last += 1  # race
            return self.last  # race
numbers = Numbers()
def work():
    for _ in numbers: pass
def run(): together(work, work)
-- race
with self.guard: => if self.guard:
## a cell belongs to whoever its number stands for, and sums under its lock
locks, sums = [threading.Lock() for _ in range(2)], [0, 0]
def add(number):
    with locks[number % 2]: sums[number % 2] += number  # race
def run(): together(*(functools.partial(add, number) for number in range(5)))
-- race
locks[number % 2]: => locks[number // 2 % 2]:
## a gate is closed by one thread and opened by another
gate, box = threading.Lock(), Box()
gate.acquire()
def first():
    box.n = 1  # race
    gate.release()
def second():
    with gate: box.n += 1  # race
def run(): together(second, first)
-- race
with gate: => gate.acquire(timeout=0) and gate.release()\n    if gate:
"""

STARTS = r"""
## all is filled before the thread starts
class Server:
    def __init__(self): self.names, self.thread = [], threading.Thread(target=self.serve)
    def serve(self): self.names.append(len(self.names))  # race
    def begin(self):
        self.names.append("root")  # race
        self.thread.start()
def run():
    server = Server()
    server.begin()
    server.thread.join()
    len(server.names)
-- race
self.names.append("root")  # race\n        self.thread.start() => self.thread.start()\n        self.names.append("root")  # race
## a class of threads has its result behind the join
class Sum(threading.Thread):
    def __init__(self, numbers):
        super().__init__()
        self.numbers, self.result = numbers, None
    def run(self): self.result = sum(self.numbers)  # race
    def join(self, timeout=None):
        super().join(timeout)
        return self.result  # race
def run():
    threads = [Sum([1, 2]), Sum([3])]
    for thread in threads: thread.start()
    sum(thread.join() for thread in threads)
-- race
super().join(timeout) => self.is_alive; time.sleep(0.001)
return self.result => return self.result or 0
## a thread that waits with a timeout is told to stop, and joined
stop, box = threading.Event(), Box()
def work():
    while not stop.wait(0.001): box.n += 1
    box.n = -box.n  # race
def run():
    worker = threading.Thread(target=work)
    worker.start()
    stop.set()
    worker.join()
    box.n  # race
-- race
worker.join()\n    box.n  # race => box.n  # race\n    worker.join()
while not stop.wait(0.001): box.n += 1 => stop.wait()
## a timer is cancelled and waited for
begun, box = threading.Event(), Box()
def ring():
    begun.set()
    box.n += 1  # race
def run():
    timer = threading.Timer(0, ring)
    timer.start()
    begun.wait()
    timer.cancel()
    timer.join()
    box.n  # race
-- race
timer.join()\n    box.n  # race => box.n  # race\n    timer.join()
## threads that are started by threads are waited for by who started them
rows = [0] * 4
def leaf(place): rows[place] = place  # race
def branch(place): together(lambda: leaf(place), lambda: leaf(place + 1))
def run():
    together(lambda: branch(0), lambda: branch(2))
    sum(rows)  # race
-- race
def branch(place): together( => def branch(place): start(
def run(): => def start(*works):\n    for work in works: threading.Thread(target=work).start()\ndef run():
## what each thread has is merged once all have ended
class Own(threading.local):
    def __init__(self): self.n = 0
own, sums = Own(), {}
def work(name):
    for _ in range(3): own.n += 1  # race
    sums[name] = own.n  # race
def run():
    together(lambda: work("a"), lambda: work("b"))
    sum(sums.values())
-- race
class Own(threading.local): => class Own:
## an array has a cell for each thread, by its name
cells = {}
def work():
    me = threading.get_ident()
    cells[me] = 0  # race
    for _ in range(3): cells[me] += 1  # race
def run():
    together(work, work)
    sum(cells.values())
-- race
me = threading.get_ident() => me = threading.current_thread().daemon
## objects that go are counted under a lock
guard, gone = threading.Lock(), {"count": 0}
class Page: pass
def went():
    with guard: gone["count"] += 1  # race
def work():
    for _ in range(2):
        page = Page()
        weakref.finalize(page, went)
        del page
def run(): together(work, work)
-- race
with guard: => if guard:
## a thread is made by whoever asks first, under a lock
class Lazy:
    def __init__(self): self.guard, self.thread, self.jobs, self.seen = threading.Lock(), None, queue.Queue(), []
    def ask(self, name):
        with self.guard:
            if self.thread is None:  # race
                self.thread = threading.Thread(target=self.serve)  # race
                self.thread.start()
        self.jobs.put(name)
    def serve(self):
        for name in iter(self.jobs.get, None): self.seen.append(name)
    def close(self):
        self.jobs.put(None)
        self.thread.join()  # race
        return len(self.seen)
def run():
    lazy = Lazy()
    together(lambda: lazy.ask("a"), lambda: lazy.ask("b"))
    lazy.close()
-- race
with self.guard:\n => self.thread  # race\n        with self.guard:\n
## two threads take from both ends, and each has what it took
line, taken = collections.deque(Box() for _ in range(6)), [0, 0]
def left():
    for _ in range(3):
        box = line.popleft()
        box.n += 1  # race
        taken[0] += box.n  # race
def right():
    for _ in range(3):
        box = line.pop()
        box.n += 1  # race
        taken[1] += box.n  # race
def run(): together(left, right)
-- race
Box() for _ in range(6) => [Box()] * 6
"""

FUTURES = r"""
## each result leads to the next future
def run():
    first, second, box = Future(), Future(), Box()
    def go_on(done):
        box.n += done.result()  # race
        second.set_result(box.n)
    first.add_done_callback(go_on)
    def begin():
        box.n = 1  # race
        first.set_result(2)
    def end():
        second.result()
        box.n  # race
    together(begin, end)
-- race
second.result()\n        box.n  # race => box.n  # race\n        second.result()
## a promise has a table, which is whole before it is kept
def run():
    promise = Future()
    def keep():
        table = {"a": 1}
        table["b"] = 2
        promise.set_result(table)
    def ask(): len(promise.result())  # race
    together(keep, ask, ask)
-- race
promise.set_result(table) => promise.set_result(table); table["c"] = 3  # race
## parts are counted by jobs and merged as they come
def count(text):
    found = collections.Counter()
    for letter in text: found[letter] += 1
    return found
total = collections.Counter()
def run():
    with ThreadPoolExecutor(2) as pool:
        for job in as_completed([pool.submit(count, text) for text in ("ab", "bc", "ca")]): total.update(job.result())  # race
    total["a"]
-- race
found = collections.Counter() => found = total
for letter in text: found[letter] += 1 => for letter in text: found["all"] += 1  # race
return found => return {}
## jobs of a pool are waited for, some at a time
def run():
    rows = [0, 0, 0]
    def work(place): rows[place] += 1  # race
    with ThreadPoolExecutor(2) as pool:
        left = {pool.submit(work, place) for place in range(3)}
        while left: _, left = wait(left, return_when=FIRST_COMPLETED)
        sum(rows)  # race
-- race
for place in range(3)} => for place in range(3)}; sum(rows)  # race
## a pool maps a function over objects, each of which is a job's own
def grow(box):
    box.n += 1  # race
    return box
def run():
    boxes = [Box() for _ in range(4)]
    with ThreadPoolExecutor(2) as pool:
        for box in pool.map(grow, boxes): box.n += 1  # race
-- race
[Box() for _ in range(4)] => [Box()] * 4
## a job asks another pool, and waits for it
def run():
    table = {"a": 1}
    with ThreadPoolExecutor(1) as outer, ThreadPoolExecutor(1) as inner:
        def change(): table["a"] += 1  # race
        def job():
            change()
            inner.submit(change).result()
            change()
        outer.submit(job).result()
        table["a"]  # race
-- race
inner.submit(change).result() => inner.submit(change)
## a callback of a job sets the event that is waited for
def run():
    begun, done, rows = threading.Event(), threading.Event(), []
    def work():
        begun.wait()
        rows.append(1)  # race
    with ThreadPoolExecutor(1) as pool:
        pool.submit(work).add_done_callback(lambda _: done.set())
        begun.set()
        done.wait()
        len(rows)  # race
-- race
done.wait()\n        len(rows)  # race => len(rows)  # race\n        done.wait()
## a pool's one thread keeps what its jobs change
def run():
    score = Box()
    def add(): score.n += 1  # race
    with ThreadPoolExecutor(1) as pool:
        for _ in range(3): pool.submit(add)
    score.n
-- race
ThreadPoolExecutor(1) => ThreadPoolExecutor(2)
## each result is awaited in turn, and the next job gets it
def run():
    rows = []
    def extend(more): rows.extend(more), rows.sort()  # race
    with ThreadPoolExecutor(2) as pool:
        for number in range(3): pool.submit(extend, [number]).result()
    len(rows)
-- race
pool.submit(extend, [number]).result() => pool.submit(extend, [number])
## a pool of multiprocessing in threads gives what it maps
from multiprocessing.pool import ThreadPool
def run():
    rows = {}
    def work(place):
        rows[place] = place  # race
        return place
    with ThreadPool(2) as pool:
        for place in pool.imap_unordered(work, range(3)): rows[place] += 1  # race
-- race
rows[place] = place  # race => rows[0] = place  # race
rows[place] += 1 => rows[0] += 1
"""

LOOPS = r"""
## a lock is held across a turn of the loop
def run():
    stock = {"left": 9}
    async def sell(guard):
        async with guard:
            left = stock["left"]  # race
            await turn()
            stock["left"] = left - 1  # race
    async def main():
        guard = asyncio.Lock()
        await asyncio.gather(sell(guard), sell(guard))
    asyncio.run(main())
-- race
async with guard: => if guard:
## a lock of one's own by futures
class Lock:
    def __init__(self): self.is_held, self.waiting = False, collections.deque()
    async def __aenter__(self):
        if self.is_held:
            one = asyncio.get_running_loop().create_future()
            self.waiting.append(one)
            await one
        self.is_held = True
    async def __aexit__(self, *fault):
        if self.waiting: self.waiting.popleft().set_result(None)
        else: self.is_held = False
def run():
    stock = {"left": 9}
    async def sell(guard):
        async with guard:
            left = stock["left"]  # race
            await turn()
            stock["left"] = left - 1  # race
    async def main():
        guard = Lock()
        await asyncio.gather(*(sell(guard) for _ in range(3)))
    asyncio.run(main())
-- race
async with guard: => async with Lock():
## two tasks change one row under a semaphore of one permit
def run():
    row = [0]
    async def add(permit):
        async with permit:
            mine = row[0]  # race
            await turn()
            row[0] = mine + 1  # race
    async def main():
        permit = asyncio.Semaphore(1)
        async with asyncio.TaskGroup() as group:
            for _ in range(3): group.create_task(add(permit))
    asyncio.run(main())
-- race
Semaphore(1) => Semaphore(2)
## tasks wait for a table that one of them fills
def run():
    table = {}
    async def fill(ready):
        size = len(table)  # race
        await turn()
        table["size"] = size + 1  # race
        ready.set()
    async def add(ready):
        await ready.wait()
        size = table.get("size", 0)  # race
        await turn()
        table["size"] = size + 2  # race
    async def main():
        ready = asyncio.Event()
        await asyncio.gather(add(ready), fill(ready))
    asyncio.run(main())
-- race
await ready.wait() => ready.is_set()
## one task of a barrier writes what all have read before
def run():
    row = [1]
    async def work(place, phase):
        mine = row[0]  # race
        await phase.wait()
        if place == 0: row[0] = mine + 1  # race
        await phase.wait()
        return row[0]
    async def main():
        phase = asyncio.Barrier(2)
        await asyncio.gather(work(0, phase), work(1, phase))
    asyncio.run(main())
-- race
if place == 0: row => row
## each task of a group has its own key
def run():
    table = {"a": 0, "b": 0}
    async def add(name):
        mine = table[name]  # race
        await turn()
        table[name] = mine + 1  # race
    async def main():
        async with asyncio.TaskGroup() as group:
            for name in "ab": group.create_task(add(name))
        return table["a"]
    asyncio.run(main())
-- race
table[name] => table["a"]
## a step under a lock may take so long and no longer
def run():
    row = [0]
    async def add(guard):
        async with asyncio.timeout(5), guard:
            mine = row[0]  # race
            await turn()
            row[0] = mine + 1  # race
    async def main():
        guard = asyncio.Lock()
        await asyncio.gather(add(guard), add(guard))
    asyncio.run(main())
-- race
asyncio.timeout(5), guard: => asyncio.timeout(5):
## a condition of a loop keeps who takes from who gives
def run():
    row = {"left": 0}
    async def give(ready):
        for _ in range(2):
            async with ready:
                left = row["left"]  # race
                await turn()
                row["left"] = left + 1  # race
                ready.notify()
    async def take(ready):
        for _ in range(2):
            async with ready:
                await ready.wait_for(lambda: row["left"])
                left = row["left"]  # race
                await turn()
                row["left"] = left - 1  # race
    async def main():
        ready = asyncio.Condition()
        await asyncio.gather(take(ready), give(ready))
    asyncio.run(main())
-- race
async with ready:\n                left = => if ready:\n                left =
ready.notify() => pass
await ready.wait_for(lambda: row["left"]) => await turn()
take(ready), give(ready) => take(ready), give(ready), give(ready)
## jobs of a queue of a loop have one worker each
def run():
    async def work(jobs):
        while True:
            job = await jobs.get()
            left = job.n  # race
            await turn()
            job.n = left + 1  # race
            jobs.task_done()
    async def main():
        jobs = asyncio.LifoQueue()
        for _ in range(4): jobs.put_nowait(Box())
        workers = [asyncio.create_task(work(jobs)) for _ in range(2)]
        await jobs.join()
        for worker in workers: worker.cancel()
    asyncio.run(main())
-- race
jobs = asyncio.LifoQueue() => jobs, box = asyncio.LifoQueue(), Box()
put_nowait(Box()) => put_nowait(box)
## an asynchronous generator is gone through by one task
def run():
    seen = Box()
    async def numbers():
        for _ in range(3):
            mine = seen.n  # race
            await turn()
            seen.n = mine + 1  # race
            yield mine
    async def main():
        steps = numbers()
        async def go():
            async for _ in steps: pass
        await go()
        await asyncio.gather(go(), go())
    asyncio.run(main())
-- race
await go() => await turn()
async for _ in steps => async for _ in numbers()
## a context gives back what it has borrowed from a queue
def run():
    @contextlib.asynccontextmanager
    async def borrowed(pool):
        one = await pool.get()
        try: yield one
        finally: pool.put_nowait(one)
    async def work(pool):
        async with borrowed(pool) as box:
            mine = box.n  # race
            await turn()
            box.n = mine + 1  # race
    async def main():
        pool = asyncio.Queue()
        pool.put_nowait(Box())
        await asyncio.gather(work(pool), work(pool))
    asyncio.run(main())
-- race
one = await pool.get() => one = await pool.get(); pool.put_nowait(one)
finally: pool.put_nowait(one) => finally: pass
## a look and a change are one turn, and the flag goes down in a later one
def run():
    class Busy(Box): is_busy = False
    box = Busy()
    async def work():
        if box.is_busy: return  # race
        box.is_busy = True  # race
        mine = box.n  # race
        await turn()
        box.n = mine + 1  # race
        box.is_busy = False  # race
    async def main(): await asyncio.gather(work(), work())
    asyncio.run(main())
-- race
if box.is_busy: return => box.is_busy
## whoever comes second waits for the future of the first
def run():
    flights, made = {}, Box()
    async def load():
        mine = made.n  # race
        await turn()
        made.n = mine + 1  # race
        return mine
    async def ask(name):
        if name not in flights: flights[name] = asyncio.ensure_future(load())
        return await flights[name]
    async def main(): await asyncio.gather(ask("a"), ask("a"), ask("a"))
    asyncio.run(main())
-- race
if name not in flights: flights[name] => flights[name]
## a thread hands a coroutine to a loop and waits for it
def run():
    loop, rows = asyncio.new_event_loop(), []
    server = threading.Thread(target=loop.run_forever)
    server.start()
    async def look():
        await turn()
        return len(rows)  # race
    def ask():
        rows.append(1)  # race
        asked = asyncio.run_coroutine_threadsafe(look(), loop)
        asked.result()
        rows.append(2)
    together(ask)
    loop.call_soon_threadsafe(loop.stop)
    server.join()
    loop.close()
-- race
asked.result()\n        rows.append(2) => rows.append(2)  # race\n        asked.result()
## a thread wakes a task of a loop by an event
def run():
    box = Box()
    async def main():
        loop, ready = asyncio.get_running_loop(), asyncio.Event()
        def work():
            box.n = 1  # race
            loop.call_soon_threadsafe(ready.set)
        worker = threading.Thread(target=work)
        worker.start()
        await ready.wait()
        box.n += 1  # race
        worker.join()
    asyncio.run(main())
-- race
box.n = 1  # race\n            loop.call_soon_threadsafe(ready.set) => loop.call_soon_threadsafe(ready.set)\n            box.n = 1  # race
## a thread puts into a queue of a loop
def run():
    async def main():
        loop, jobs = asyncio.get_running_loop(), asyncio.Queue()
        def work():
            for number in range(3):
                job = {}
                job["number"] = number
                loop.call_soon_threadsafe(jobs.put_nowait, job)
        worker = threading.Thread(target=work)
        worker.start()
        for _ in range(3): (await jobs.get())["seen"] = True  # race
        worker.join()
    asyncio.run(main())
-- race
jobs.put_nowait, job) => jobs.put_nowait, job); len(job)  # race
## what a thread does for a task is awaited
def run():
    rows = []
    def grow(): rows.append(len(rows))  # race
    async def main():
        await asyncio.to_thread(grow)
        rows.append(2)  # race
        await asyncio.get_running_loop().run_in_executor(None, grow)
        return len(rows)  # race
    asyncio.run(main())
-- race
await asyncio.to_thread(grow)\n        rows => asked = asyncio.create_task(asyncio.to_thread(grow)); await turn()\n        rows
return len => await asked; return len
## two loops in two threads hand over by a future
def run():
    there, box = Future(), Box()
    async def give():
        box.n = 1  # race
        there.set_result(2)
    async def take():
        more = await asyncio.wrap_future(there)
        box.n += more  # race
    together(lambda: asyncio.run(take()), lambda: asyncio.run(give()))
-- race
box.n = 1  # race\n        there.set_result(2) => there.set_result(2)\n        box.n = 1  # race
## a lock of threads keeps what two loops change
def run():
    guard, row = threading.Lock(), [0]
    async def add():
        for _ in range(2):
            with guard: row[0] += 1  # race
            await turn()
    together(lambda: asyncio.run(add()), lambda: asyncio.run(add()))
-- race
with guard: => if guard:
## tasks give what they have, and one puts it together
def run():
    async def load(name):
        rows = [name]
        await turn()
        rows.append(len(rows))
        return rows
    async def main():
        total = []
        for rows in await asyncio.gather(load("a"), load("b")): total.extend(rows)
        return len(total)
    asyncio.run(main())
-- race
async def main(): => async def add(table):\n        size = len(table)  # race\n        await turn()\n        table["size"] = size  # race\n    async def main():\n        table = {}; await asyncio.gather(add(table), add(table))
## a variable of a context is each task's own
import contextvars
def run():
    rows = contextvars.ContextVar("rows")
    async def work():
        rows.set({"n": 0})
        for _ in range(2):
            mine = rows.get()["n"]  # race
            await turn()
            rows.get()["n"] = mine + 1  # race
    async def main():
        rows.set({"n": 0})
        await asyncio.gather(work(), work())
    asyncio.run(main())
-- race
async def work():\n        rows.set({"n": 0}) => async def work():\n        rows.get()
"""

LIBRARY = r"""
## a scheduler calls one after another in its thread
import sched
def run():
    plan, rows = sched.scheduler(), []
    for place in range(3): plan.enter(0, place, rows.append, (place,))
    planning = threading.Thread(target=plan.run)
    planning.start()
    planning.join()
    len(rows)  # race
-- race
planning.join()\n    len(rows)  # race => len(rows)  # race\n    planning.join()
(0, place, rows.append, (place,)) => (0, place, lambda: rows.append(1))  # race
## what a listener of a queue of records has written is read behind its end
import logging, logging.handlers
def run():
    class Rows(logging.Handler):
        def __init__(self):
            super().__init__()
            self.rows = []
        def emit(self, record): self.rows.append(record.msg)  # race
    told, rows = queue.Queue(), Rows()
    log = logging.Logger("in order")
    log.addHandler(logging.handlers.QueueHandler(told))
    listener = logging.handlers.QueueListener(told, rows)
    listener.start()
    together(lambda: log.warning("a"), lambda: log.warning("b"))
    listener.stop()
    len(rows.rows)  # race
-- race
listener.stop()\n    len(rows.rows)  # race => len(rows.rows)  # race\n    listener.stop()
## a handler writes under the lock of handlers
import logging
class Lines(logging.Handler):
    def __init__(self):
        super().__init__()
        self.lines = []
    def emit(self, record): self.lines.append(len(self.lines))  # race
    def count(self):
        with self.lock: return len(self.lines)  # race
def run():
    lines, log = Lines(), logging.Logger("in order")
    log.addHandler(lines)
    together(lambda: log.warning("a"), lambda: log.warning("b"), lines.count)
-- race
with self.lock: return => return
## a server answers each request in its one thread
import socketserver, socket
def run():
    asked = []
    class Answer(socketserver.StreamRequestHandler):
        def handle(self):
            asked.append(self.rfile.readline())  # race
            self.wfile.write(b"a")
    with socketserver.TCPServer(("127.0.0.1", 0), Answer) as server:
        serving = threading.Thread(target=server.serve_forever, args=(0.01,))
        serving.start()
        for _ in range(2):
            with socket.create_connection(server.server_address) as asking:
                asking.sendall(b"a\n")
                asking.recv(1)
        server.shutdown()
        serving.join()
    len(asked)  # race
-- race
server.shutdown()\n        serving.join()\n    len(asked)  # race => len(asked)  # race\n        server.shutdown()\n        serving.join()
## a server of pages counts under a lock
import http.server, urllib.request
def run():
    guard, hits = threading.Lock(), {"count": 0}
    class Page(http.server.BaseHTTPRequestHandler):
        def do_GET(self):
            with guard: hits["count"] += 1  # race
            self.send_response(204)
            self.end_headers()
        def log_message(self, *words): pass
    with http.server.ThreadingHTTPServer(("127.0.0.1", 0), Page) as server:
        serving = threading.Thread(target=server.serve_forever, args=(0.01,))
        serving.start()
        def ask():
            with urllib.request.urlopen(f"http://127.0.0.1:{server.server_port}/") as answer: answer.read()
        together(ask, ask)
        server.shutdown()
        serving.join()
-- race
with guard: => if guard:
## a function of a database counts under a lock
import sqlite3
def run():
    guard, calls = threading.Lock(), {"count": 0}
    def tally(number):
        with guard: calls["count"] += 1  # race
        return number
    def work():
        with contextlib.closing(sqlite3.connect(":memory:")) as base:
            base.create_function("tally", 1, tally)
            base.execute("select tally(1)").fetchall()
    together(work, work)
-- race
with guard: => if guard:
## a property is computed once, and under a lock of its own
class Report:
    def __init__(self): self.guard, self.rows, self.kept = threading.Lock(), [1, 2], None
    @property
    def total(self):
        with self.guard:
            if self.kept is None:  # race
                self.kept = sum(self.rows)  # race
            return self.kept  # race
report = Report()
def run(): together(lambda: report.total, lambda: report.total)
-- race
with self.guard: => if self.guard:
## a cached property is read once all have ended that change what it sums
class Report:
    def __init__(self): self.rows, self.guard = [], threading.Lock()
    def add(self, row):
        with self.guard: self.rows.append(row)  # race
    @functools.cached_property
    def total(self): return sum(self.rows)  # race
report = Report()
def run():
    together(lambda: report.add(1), lambda: report.add(2))
    together(lambda: report.total, lambda: report.total)
-- race
together(lambda: report.add(1), lambda: report.add(2)) => threads = [threading.Thread(target=report.add, args=(1,)) for _ in range(2)]\n    for thread in threads: thread.start()
## the least recent goes out of a cache under its lock
class Cache:
    def __init__(self): self.guard, self.rows = threading.RLock(), collections.OrderedDict()
    def get(self, key):
        with self.guard:
            if key in self.rows: self.rows.move_to_end(key)  # race
            else: self.put(key)
            return self.rows[key]  # race
    def put(self, key):
        with self.guard:
            self.rows[key] = len(key)  # race
            if len(self.rows) > 2: self.rows.popitem(last=False)  # race
cache = Cache()
def run(): together(*(functools.partial(cache.get, key) for key in "abca"))
-- race
with self.guard:\n            if key in => if self.guard:\n            if key in
## names are kept once, and given to all
class Name:
    table, guard = weakref.WeakValueDictionary(), threading.Lock()
    def __init__(self, text): self.text, self.uses = text, 0
    @classmethod
    def of(cls, text):
        with cls.guard:
            one = cls.table.get(text)
            if one is None: one = cls.table[text] = cls(text)
            one.uses += 1  # race
            return one
def run():
    kept = Name.of("a")
    together(lambda: Name.of("a"), lambda: Name.of("a"))
    kept.uses
-- race
with cls.guard: => if cls.guard:
## rows are grouped by jobs under a lock, and told at the end
groups, guard = collections.defaultdict(list), threading.Lock()
def work(word):
    with guard: groups[len(word)].append(word)  # race
def run():
    together(*(functools.partial(work, word) for word in ("a", "b", "cc")))
    {size: sorted(words) for size, words in groups.items()}
    len(groups[1]), next(iter(groups[1]))
-- race
with guard: groups[len(word)].append(word) => with guard: groups[len(word)].insert(0, word)
with guard: => if guard:
## a text in memory is written by each under a lock, whole
import io
text, guard = io.StringIO(), threading.Lock()
def work(word):
    with guard:
        text.write(word)  # race
        text.seek(0)  # race
        text.read()  # race
def run():
    together(lambda: work("a"), lambda: work("b"))
    text.getvalue()
-- race
with guard: => if guard:
## heaps of jobs are taken under a condition
import heapq
class Line:
    def __init__(self): self.ready, self.rows = threading.Condition(), []
    def put(self, row):
        with self.ready:
            heapq.heappush(self.rows, row)  # race
            self.ready.notify()
    def get(self):
        with self.ready:
            while not self.rows: self.ready.wait()
            return heapq.heappop(self.rows)  # race
    def first(self):
        with self.ready: return min(self.rows, default=None)  # race
def run():
    line = Line()
    together(lambda: [line.put(row) for row in (3, 1, 2)], lambda: [line.get() for _ in range(3)], line.first)
-- race
with self.ready: return min => return min
"""

TABLES = (QUEUES, LOCKS, STARTS, FUTURES, LOOPS, LIBRARY, QUEUES_LOOKED_INTO, AS_WRITTEN)
RACE, POSSIBLE = "race", "possible"


class Twins(NamedTuple):
    """A program, and the one with something wrong."""

    clean: Construct
    twin: Construct
    told: frozenset[str]
    """As what the twin's lines may be told."""


def _twins(part: str) -> Twins:
    name, _, rest = part.partition("\n")
    source, _, below = rest.partition("\n-- ")
    told, *changes = below.strip("\n").split("\n")
    twin = source
    for change in changes:
        old, found, new = change.replace("\\n", "\n").partition(" => ")
        if not found or old not in twin:
            raise ValueError(f"{name}: the twin has no {old!r}")
        twin = twin.replace(old, new)
    clean, wrong = (Construct("in order", name, f"{BEGIN}{text}\n") for text in (source, twin))
    return Twins(clean, wrong, frozenset(told.split(" or ")))


def twins() -> list[Twins]:
    return [_twins(part) for text in TABLES for part in text.split("\n## ")[1:]]


class Found(NamedTuple):
    """What runs have told."""

    false: list[str]
    """Programs in order of which something is told."""
    missed: list[str]
    """Twins of which nothing is told."""
    wrong: list[str]
    """Twins of which another line is told, or as something else."""
    faults: dict[str, str]


Lines = dict[int, dict[str, set[int]]]
"""Of programs, by their numbers, the lines that are told, by what they are told as."""


def _told_of(chosen: list[Construct], faults: dict[str, str]) -> Lines:
    """Runs programs, all in this process."""
    pairs: list[Pair] = chosen  # type: ignore[assignment]  # A program has its text as a pair has.
    failed: dict[str, str] = {}
    _, races = races_of(pairs, "", failed, ("run",))
    faults.update({chosen[int(name.removeprefix("pair_"))].name: fault for name, fault in failed.items()})
    told: Lines = {}
    for kind, found in ((RACE, races.races), (POSSIBLE, races.possible)):
        for number, lines in lines_told(found).items():
            told.setdefault(number, {})[kind] = lines
    return told


def found_in(chosen: list[Twins]) -> Found:
    """Runs programs, and then their twins."""
    faults: dict[str, str] = {}
    clean = _told_of([one.clean for one in chosen], faults)
    twin = _told_of([one.twin for one in chosen], faults)
    wrong = []
    for number, told in twin.items():
        one = chosen[number]
        if not set().union(*told.values()) <= one.twin.due.lines or not told.keys() <= one.told:
            wrong.append(f"{one.twin.name}: {told}, not {sorted(one.twin.due.lines)} as {sorted(one.told)}")
    return Found(
        [f"{chosen[number].clean.name}: {told}" for number, told in clean.items()],
        [one.twin.name for number, one in enumerate(chosen) if number not in twin], wrong, faults,
    )


if __name__ == "__main__":
    words = sys.argv[1:]
    some = [one for one in twins() if not words or any(word in one.clean.name for word in words)]
    print("", json.dumps(found_in(some)._asdict(), indent=1 if words else None), sep="\n")
