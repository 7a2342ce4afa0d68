"""Programs as people write them, by flags, polls, hand-overs and phases, each with a twin in which one thing is wrong.

`tests.in_order` runs them, and says how they read.
"""

from __future__ import annotations

AS_WRITTEN = r"""
## a worker goes on until an event says so, and its count is read behind the join
class Worker(threading.Thread):
    def __init__(self):
        super().__init__()
        self.stop, self.rounds = threading.Event(), 0
    def run(self):
        while not self.stop.is_set():
            self.rounds += 1  # race
            time.sleep(0.001)
def run():
    worker = Worker()
    worker.start()
    time.sleep(0.005)
    worker.stop.set()
    worker.join()
    worker.rounds  # race
-- race
worker.join() => worker.name
## a settings object is made once, and looked at under the lock alone
class Settings:
    guard, one = threading.Lock(), None
    @classmethod
    def get(cls):
        if cls.guard is not None:
            with cls.guard:
                if cls.one is None: cls.one = Box()  # race
                return cls.one
def run(): together(*[Settings.get] * 3)
-- race
if cls.guard is not None: => if cls.one is None:  # race
## readers have a copy of the table, and writers put another one in its place
class Routes:
    def __init__(self): self.guard, self.table = threading.Lock(), {}
    def add(self, name, target):
        with self.guard: self.table = {**self.table, name: target}  # race
    def find(self, name):
        with self.guard: table = self.table
        return table.get(name)
routes = Routes()
def run(): together(lambda: routes.add("a", 1), lambda: routes.add("b", 2), lambda: routes.find("a"))
-- race
with self.guard: table = self.table => table = self.table  # race
## a ring of four places by two conditions of one lock
class Ring:
    def __init__(self):
        self.places, self.first, self.size = [None] * 4, 0, 0
        lock = threading.Lock()
        self.has_room, self.has_items = threading.Condition(lock), threading.Condition(lock)
    def put(self, item):
        with self.has_room:
            while self.size == 4: self.has_room.wait()
            self.places[(self.first + self.size) % 4] = item
            self.size += 1  # race
            self.has_items.notify()
    def get(self):
        with self.has_items:
            while not self.size: self.has_items.wait()
            item = self.places[self.first]
            self.first = (self.first + 1) % 4
            self.size -= 1  # race
            self.has_room.notify()
            return item
    def is_full(self):
        with self.has_room: return self.size == 4  # race
def run():
    ring = Ring()
    together(lambda: [ring.put(n) for n in range(9)], lambda: [ring.get() for _ in range(9)], ring.is_full)
-- race
with self.has_room: return self.size => return self.size
## many readers and one writer by a lock of one's own
class ReadWrite:
    def __init__(self): self.ready, self.readers = threading.Condition(), 0
    @contextlib.contextmanager
    def read(self):
        with self.ready: self.readers += 1
        try: yield
        finally:
            with self.ready:
                self.readers -= 1
                if not self.readers: self.ready.notify_all()
    @contextlib.contextmanager
    def write(self):
        with self.ready:
            while self.readers: self.ready.wait()
            yield
lock, book = ReadWrite(), {"a": 1}
def look():
    for _ in range(3):
        with lock.read(): book["a"]  # race
def change():
    for _ in range(3):
        with lock.write(): book["a"] = 2  # race
def run(): together(look, change, look)
-- race
with lock.read(): => if lock:
## a semaphore of one permit is a lock
permit, sums = threading.Semaphore(1), {"all": 0}
def add():
    for _ in range(3):
        permit.acquire()
        try: sums["all"] += 1  # race
        finally: permit.release()
def run(): together(add, add)
-- race
permit, sums = threading.Semaphore(1), => permit, sums = threading.Semaphore(2),
## two threads hit a ball by two events
left, right, ball = threading.Event(), threading.Event(), Box()
def hit(mine, other):
    for _ in range(3):
        mine.wait()
        mine.clear()
        ball.n += 1  # race
        other.set()
def run():
    left.set()
    together(lambda: hit(left, right), lambda: hit(right, left))
-- race
        ball.n += 1  # race\n        other.set() =>         other.set()\n        ball.n += 1  # race
## phases are told apart by a barrier
barrier, cells, sums = threading.Barrier(3), [1, 2, 3], [0, 0, 0]
def work(place):
    for _ in range(2):
        sums[place] = sum(cells)  # race
        barrier.wait()
        cells[place] = sums[place]  # race
        barrier.wait()
def run(): together(*(functools.partial(work, place) for place in range(3)))
-- race
        cells[place] = sums[place]  # race\n        barrier.wait() =>         cells[place] = sums[place]  # race
## each request brings the queue that its answer goes to
requests = queue.Queue()
def serve():
    for request, answers in iter(requests.get, None):
        request.n += 1  # race
        answers.put(request)
def ask():
    request, answers = Box(), queue.Queue()
    requests.put((request, answers))
    answers.get().n += 1  # race
def run():
    server = threading.Thread(target=serve)
    server.start()
    together(ask, ask)
    requests.put(None)
    server.join()
-- race
answers.get().n += 1  # race => request.n += 1  # race
## what a chain of futures hands on is one task's at a time
pool, row = ThreadPoolExecutor(2), Box()
def first(box):
    box.n += 1  # race
    return box
def second(future):
    box = future.result()
    box.n += 1  # race
    return box
def run():
    one = pool.submit(first, row)
    other = pool.submit(second, one)
    other.result().n += 1  # race
-- race
other.result().n += 1  # race => row.n += 1  # race
## a callback of a future is done before whoever waits for it by an event
pool, begun, finished, found = ThreadPoolExecutor(2), threading.Event(), threading.Event(), []
def work():
    begun.wait()
    return 8
def keep(future):
    found.append(future.result())  # race
    finished.set()
def run():
    pool.submit(work).add_done_callback(keep)
    begun.set()
    finished.wait()
    len(found)  # race
-- race
finished.wait() => time.sleep(0.02)
## a timer that has been waited for
found = {"n": 0}
def tick(): found["n"] += 1  # race
def run():
    timer = threading.Timer(0.001, tick)
    timer.start()
    timer.join()
    found["n"]  # race
-- race
timer.join() => timer.name
## a timer that was cancelled is no more
found = {"n": 0}
def tick(): found["n"] += 1  # race
def run():
    timer = threading.Timer(5, tick)
    timer.start()
    timer.cancel()
    timer.join()
    found["n"] += 1  # race
    later = threading.Timer(0, tick)
    later.start()
    later.join()
-- race
    later.join() =>     found["n"] += 1  # race
## a generator goes from one thread to another
def numbers():
    n = 0
    while True:
        n += 1
        yield n
there = queue.Queue()
def begin():
    one = numbers()
    next(one)  # race
    there.put(one)
    print(end="")
def go_on(): next(there.get())  # race
def run(): together(begin, go_on)
-- race
    print(end="") =>     next(one)  # race
## each job has a context of its own
import contextvars
user, names = contextvars.ContextVar("user", default=None), {}
def work(name):
    user.set(name)
    names[name] = user.get()  # race
def run():
    with ThreadPoolExecutor(2) as pool:
        for name in ("a", "b"): pool.submit(contextvars.copy_context().run, work, name)
    names["a"]  # race
-- race
    with ThreadPoolExecutor(2) as pool: =>     if pool := ThreadPoolExecutor(2):
## states change under a lock, and whoever waits for one has a condition
class Machine:
    def __init__(self): self.changed, self.state = threading.Condition(), "new"
    def go(self, state):
        with self.changed:
            self.state = state  # race
            self.changed.notify_all()
    def wait_for(self, state):
        with self.changed: self.changed.wait_for(lambda: self.state == state)
    @property
    def is_new(self):
        with self.changed: return self.state == "new"  # race
def run():
    machine = Machine()
    def start():
        machine.go("ready")
        machine.go("running")
    together(start, lambda: machine.wait_for("running"), lambda: machine.is_new)
-- race
with self.changed: return self.state => return self.state
## what is shown was made before the event, and never changes again
loaded, shown = threading.Event(), {}
def load():
    shown["a"] = 1  # race
    loaded.set()
    print(end="")
def show():
    loaded.wait()
    shown["a"]  # race
def run(): together(load, show, show)
-- race
    print(end="") =>     shown["a"] = 2  # race
## results are gathered by each worker, and put together behind the joins
class Counter(threading.Thread):
    def __init__(self, words): super().__init__(); self.words, self.counts = words, collections.Counter()
    def run(self):
        for word in self.words: self.counts[word] += 1  # race
def run():
    counters = [Counter(["a", "b"]), Counter(["a"])]
    for one in counters: one.start()
    for one in counters: one.join()
    for one in counters: sorted(one.counts.items())  # race
-- race
for one in counters: one.join() => counters[0].join()
## a cache whose misses are made by one alone
class Cache:
    def __init__(self): self.guard, self.pending = threading.Lock(), {}
    def get(self, key):
        with self.guard:
            is_mine = key not in self.pending
            future = self.pending.setdefault(key, Future())  # race
        if is_mine:
            row = Box()
            row.n = 1  # race
            future.set_result(row)
            print(end="")
        return future.result().n  # race
cache = Cache()
def run(): together(*[lambda: cache.get("a")] * 3)
-- race
            print(end="") =>             row.n = 2  # race
## a supervisor asks whether its workers are over, and reads what they found
class Job(threading.Thread):
    found = 0
    def run(self): self.found = 1  # race
def run():
    jobs = [Job() for _ in range(3)]
    for job in jobs: job.start()
    while jobs:
        for job in list(jobs):
            if not job.is_alive():
                job.found  # race
                jobs.remove(job)
-- race
if not job.is_alive(): => if job.name:
## results are taken as they come, by asking each future
pool = ThreadPoolExecutor(2)
class Task:
    def __init__(self): self.n = 0
    def work(self): self.n = 1  # race
def run():
    tasks = [Task() for _ in range(3)]
    waiting = {pool.submit(task.work): task for task in tasks}
    while waiting:
        for future in [one for one in waiting if one.done()]: waiting.pop(future).n  # race
    tasks[0].n  # race
-- race
    waiting = { =>     tasks[0].n  # race\n    waiting = {
    tasks = [Task() for _ in range(3)] =>     tasks = [Task() for _ in range(3)]; pool.submit(tasks[0].work)
## a server answers until its flag is set, and says so
class Server(threading.Thread):
    def __init__(self):
        super().__init__()
        self.stop, self.stopped, self.answered = threading.Event(), threading.Event(), 0
    def run(self):
        while True:
            self.answered += 1  # race
            if self.stop.wait(0.001): break
        self.stopped.set()
def run():
    server = Server()
    server.start()
    time.sleep(0.005)
    server.stop.set()
    if not server.stopped.wait(5): raise TimeoutError
    server.answered  # race
-- race
    if not server.stopped.wait(5): raise TimeoutError\n => \n
## work is stolen from the other end of a deque under its lock
class Deck:
    def __init__(self): self.guard, self.jobs = threading.Lock(), collections.deque(Box() for _ in range(6))
    def take(self):
        with self.guard: return self.jobs.pop() if self.jobs else None
    def steal(self):
        with self.guard: return self.jobs.popleft() if self.jobs else None  # race
deck = Deck()
def drain(take):
    while (job := take()) is not None: job.n += 1
def run(): together(lambda: drain(deck.take), lambda: drain(deck.steal))
-- race
with self.guard: return self.jobs.popleft() if self.jobs else None  # race => return self.jobs.popleft() if self.jobs else None  # race
with self.guard: return self.jobs.pop() if self.jobs else None => return self.jobs.pop() if self.jobs else None  # race
## a context enters the lock of a session, and leaves it
class Session:
    def __init__(self): self.guard, self.rows = threading.RLock(), []
    def __enter__(self): self.guard.acquire(); return self
    def __exit__(self, *fault): self.guard.release()
    def add(self, row): self.rows.append(row)  # race
    def count(self): return len(self.rows)  # race
session = Session()
def write():
    for n in range(3):
        with session: session.add(n)
def look():
    with session: session.count()
def run(): together(write, look, write)
-- race
    with session: session.count() =>     session.count()
## pages are made by one stage, and numbered by the next
raw, made = queue.Queue(2), queue.Queue(2)
def make():
    for box in iter(raw.get, None):
        box.n += 1  # race
        made.put(box)
    made.put(None)
def number():
    for box in iter(made.get, None): box.n += 1  # race
def run():
    def feed():
        for _ in range(5):
            box = Box()
            raw.put(box)
            print(end="")
        raw.put(None)
    together(make, number, feed)
-- race
            print(end="") =>             box.n = 5  # race
## a service keeps its state within one loop
class Service:
    def __init__(self): self.users, self.guard = {}, asyncio.Lock()
    async def enter(self, name):
        async with self.guard:
            count = self.users.get("all", 0)  # race
            await turn()
            self.users["all"] = count + 1  # race
async def serve():
    service = Service()
    await asyncio.gather(*(service.enter(str(n)) for n in range(3)))
def run(): asyncio.run(serve())
-- race
        async with self.guard: =>         if self.guard:
## tasks of a loop hand on by a queue, and the last one is waited for
async def serve():
    jobs, done = asyncio.Queue(), []
    async def work():
        while True:
            box = await jobs.get()
            n = box.n  # race
            await turn()
            box.n = n + 1  # race
            jobs.task_done()
    workers = [asyncio.create_task(work()) for _ in range(2)]
    for box in [Box() for _ in range(4)]: jobs.put_nowait(box)
    await jobs.join()
    for worker in workers: worker.cancel()
def run(): asyncio.run(serve())
-- race
[Box() for _ in range(4)] => [Box()] * 4
## a loop in another thread is asked, and answers
def run():
    loop, seen = asyncio.new_event_loop(), Box()
    thread = threading.Thread(target=loop.run_forever)
    thread.start()
    async def count():
        seen.n += 1  # race
        return seen.n  # race
    asyncio.run_coroutine_threadsafe(count(), loop).result(5)
    seen.n += 1  # race
    loop.call_soon_threadsafe(loop.stop)
    thread.join()
    loop.close()
-- race
asyncio.run_coroutine_threadsafe(count(), loop).result(5) => asyncio.run_coroutine_threadsafe(count(), loop), time.sleep(0.02)
## an outlet of values by subscribers, each with a queue of its own
class Outlet:
    def __init__(self): self.guard, self.queues = threading.Lock(), []
    def subscribe(self):
        mine = queue.SimpleQueue()
        with self.guard: self.queues.append(mine)  # race
        return mine
    def publish(self, value):
        with self.guard: queues = list(self.queues)
        for one in queues: one.put(value)
outlet = Outlet()
def run(): together(outlet.subscribe, lambda: outlet.publish(1), outlet.subscribe)
-- race
with self.guard: queues = list(self.queues) => queues = list(self.queues)  # race
## a latch counts down, and the last one opens it
class Latch:
    def __init__(self, count): self.guard, self.count, self.open = threading.Lock(), count, threading.Event()
    def down(self):
        with self.guard:
            self.count -= 1
            if not self.count: self.open.set()
latch, parts = Latch(3), {}
def work(name):
    parts[name] = name  # race
    latch.down()
def collect():
    latch.open.wait()
    sorted(parts)  # race
def run(): together(*(functools.partial(work, name) for name in "abc"), collect)
-- race
Latch(3) => Latch(1)
## a token bucket that a thread refills
class Bucket:
    def __init__(self): self.guard, self.tokens, self.stop = threading.Lock(), 1, threading.Event()
    def refill(self):
        while not self.stop.wait(0.001):
            with self.guard: self.tokens = 1  # race
    def take(self):
        with self.guard:
            if not self.tokens: return False  # race
            self.tokens -= 1  # race
            return True
def run():
    bucket = Bucket()
    filler = threading.Thread(target=bucket.refill)
    filler.start()
    together(bucket.take, bucket.take)
    time.sleep(0.005)
    bucket.stop.set()
    filler.join()
    bucket.tokens
-- race
            with self.guard: self.tokens = 1  # race =>             self.tokens = 1  # race
## an undo list is put aside as a whole, and worked off by another thread
class Edits:
    def __init__(self): self.guard, self.done = threading.Lock(), []
    def add(self, edit):
        with self.guard: self.done.append(edit)  # race
    def take(self):
        with self.guard: done, self.done = self.done, []  # race
        return [edit for edit in done]  # race
edits = Edits()
def run(): together(lambda: [edits.add(n) for n in range(3)], edits.take, edits.take)
-- race
with self.guard: done, self.done = self.done, []  # race => done, self.done = self.done, []  # race
## whoever comes first prepares, and the others wait for that
class Once:
    def __init__(self): self.guard, self.is_begun, self.ready, self.table = threading.Lock(), False, threading.Event(), {}
    def get(self):
        with self.guard: is_first, self.is_begun = not self.is_begun, True
        if is_first:
            self.table["a"] = 1  # race
            self.ready.set()
        self.ready.wait()
        return self.table["a"]  # race
once = Once()
def run(): together(once.get, once.get, once.get)
-- race
        self.ready.wait()\n => \n
        return self.table["a"]  # race =>         return self.table.get("a")  # race
## threads take their numbers from a counter under a lock, and write to places of their own
guard, taken, places = threading.Lock(), [0], [0] * 4
def work():
    with guard:
        mine = taken[0]
        taken[0] += 1
    places[mine] = mine  # race
def run(): together(*[work] * 4)
-- race
        taken[0] += 1 =>         taken[0] += 0
## a future of one's own is given to whoever asks first
class Mailbox:
    def __init__(self): self.guard, self.letters, self.waiting = threading.Lock(), collections.deque(), collections.deque()
    def put(self, letter):
        with self.guard:
            if not self.waiting:
                self.letters.append(letter)
                return
            future = self.waiting.popleft()
        future.set_result(letter)
    def get(self):
        future = Future()
        with self.guard:
            if self.letters: return self.letters.popleft()
            self.waiting.append(future)
        return future.result()
box = Mailbox()
def send():
    letter = Box()
    letter.n = 1
    box.put(letter)
    print(end="")
def receive(): box.get().n += 1  # race
def run(): together(send, receive)
-- race or possible
    print(end="") =>     letter.n = 2  # race
## a watchdog is fed by an event, and is told when to end
class Dog(threading.Thread):
    def __init__(self):
        super().__init__()
        self.fed, self.barks, self.is_over = threading.Event(), 0, threading.Event()
    def run(self):
        while not self.is_over.is_set():
            if self.fed.wait(0.002): self.fed.clear()
            else: self.barks += 1  # race
def run():
    dog = Dog()
    dog.start()
    dog.fed.set()
    time.sleep(0.01)
    dog.is_over.set()
    while dog.is_alive(): time.sleep(0.001)
    dog.barks  # race
-- race
    while dog.is_alive(): time.sleep(0.001)\n => \n
## a pool of connections by a stack under a condition
class Pool:
    def __init__(self): self.free, self.ready = [Box(), Box()], threading.Condition()
    @contextlib.contextmanager
    def lend(self):
        with self.ready:
            while not self.free: self.ready.wait()
            one = self.free.pop()
        try: yield one
        finally:
            with self.ready:
                self.free.append(one)
                self.ready.notify()
pool = Pool()
def use():
    for _ in range(3):
        with pool.lend() as one: one.n += 1  # race
def run(): together(use, use, use)
-- race
with pool.lend() as one: one.n += 1  # race => pool.free[0].n += 1  # race
## a value is computed in the background, and asked for later
class Lazy:
    def __init__(self):
        self.thread = threading.Thread(target=self.compute)
        self.thread.start()
    def compute(self): self.value = 3  # race
    @property
    def is_ready(self): return not self.thread.is_alive()
    def get(self):
        if not self.is_ready: self.thread.join()
        return self.value  # race
def run():
    lazy = Lazy()
    together(lazy.get, lazy.get)
-- race
        if not self.is_ready: self.thread.join() =>         while "value" not in vars(self): time.sleep(0.001)  # race
## jobs are refused once the pool is closed under its lock
class Closing:
    def __init__(self): self.guard, self.is_closed, self.jobs = threading.Lock(), False, []
    def give(self, job):
        with self.guard:
            if self.is_closed: return False
            self.jobs.append(job)
            return True
    def close(self):
        with self.guard: self.is_closed = True  # race
def run():
    pool = Closing()
    together(lambda: pool.give(1), pool.close, lambda: pool.give(2))
-- race
with self.guard: self.is_closed = True  # race => self.is_closed = True  # race
            if self.is_closed: return False =>             if self.is_closed: return False  # race
## two halves are sorted by threads, and merged behind both
def halves(rows): return rows[:len(rows) // 2], rows[len(rows) // 2:]
def run():
    left, right = halves([3, 1, 2, 5])
    threads = [threading.Thread(target=half.sort) for half in (left, right)]  # race
    for thread in threads: thread.start()
    for thread in threads: thread.join()
    sorted(left + right)  # race
-- race
for thread in threads: thread.join() => threads[0].join()
## who waits for any of several takes what that one has found
pool = ThreadPoolExecutor(3)
class Search:
    def __init__(self, n): self.n, self.found = n, None
    def go(self): self.found = self.n  # race
def run():
    searches = [Search(n) for n in range(3)]
    futures = {pool.submit(search.go): search for search in searches}
    done, _ = wait(futures, return_when=FIRST_COMPLETED)
    for future in done: futures[future].found
    for future in as_completed(futures): futures[future].found  # race
-- race
    done, _ = wait =>     searches[2].found  # race\n    done, _ = wait
"""
