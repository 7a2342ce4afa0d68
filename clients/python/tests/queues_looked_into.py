"""Programs that look into a queue under its own lock, each with a twin in which one thing is wrong.

`tests.in_order` runs them, and says how they read.
"""

from __future__ import annotations

QUEUES_LOOKED_INTO = r"""
## a queue is emptied under its condition for items
jobs = queue.Queue()
def work():
    for number in range(3): jobs.put(number)
def give_up():
    with jobs.not_empty: jobs.queue.clear()  # race
def run(): together(give_up, work, give_up)
-- race
with jobs.not_empty: => if jobs.not_empty:
## a queue is emptied, and whoever joins it is woken
jobs = queue.Queue()
def work():
    for number in range(3): jobs.put(number)
def give_up():
    with jobs.all_tasks_done:
        jobs.queue.clear()  # race
        jobs.unfinished_tasks = 0  # race
        jobs.all_tasks_done.notify_all()
def run(): together(give_up, work, give_up)
-- race
with jobs.all_tasks_done:\n        jobs.queue.clear() => if True:\n        jobs.queue.clear()
jobs.all_tasks_done.notify_all() => pass
## a queue is emptied by one under the lock, and by one under a condition of it
jobs = queue.LifoQueue()
def by_lock():
    with jobs.mutex: jobs.queue.clear()  # race
def by_condition():
    with jobs.not_full:
        jobs.queue.clear()  # race
        jobs.not_full.notify_all()
def run(): together(by_lock, by_condition, by_lock)
-- race
with jobs.mutex: => if jobs.mutex:
## a queue is looked at under a condition that the program has made of its lock
jobs = queue.Queue()
changed = threading.Condition(jobs.mutex)
jobs.seen = 0
def look():
    with changed:
        jobs.seen += 1  # race
        changed.notify_all()
def clear():
    with jobs.mutex: jobs.seen = 0  # race
def run(): together(look, clear, look)
-- race
with changed:\n        jobs.seen += 1  # race\n        changed.notify_all() => jobs.seen += 1  # race
## a condition of a queue is acquired by hand
jobs = queue.Queue()
jobs.seen = 0
def look():
    jobs.not_empty.acquire()
    jobs.seen += 1  # race
    jobs.not_empty.release()
def run(): together(look, look)
-- race
jobs.not_empty.acquire() => if jobs.not_empty.acquire(): jobs.not_empty.release()
jobs.not_empty.release()\ndef => pass\ndef
## the first item is looked at while it lies in the queue
jobs = queue.Queue()
def give():
    box = Box()
    box.n = 1
    jobs.put(box)
    print(end="")
def look():
    while True:
        with jobs.mutex: head = jobs.queue[0] if jobs.queue else None
        if head is not None: break
        time.sleep(0.001)
    head.n  # race
def run(): together(give, look)
-- race
    print(end="") =>     box.n = 2  # race
## all that lies in the queue is looked at under a condition of it
jobs, laid = queue.LifoQueue(), threading.Barrier(3)
def give():
    box = Box()
    box.n = 1
    jobs.put(box)
    print(end="")
def look():
    while jobs.qsize() < 3: time.sleep(0.001)
    with jobs.not_full: boxes = list(jobs.queue)
    sum(box.n for box in boxes)  # race
def run(): together(give, give, give, look)
-- race
    print(end="") =>     box.n = 2  # race
## an item is put before all others by hand
jobs = queue.Queue()
jobs.put(Box())
def give():
    box = Box()
    box.n = 1
    with jobs.not_empty:
        jobs.queue.appendleft(box)
        jobs.unfinished_tasks += 1
        jobs.not_empty.notify()
    print(end="")
def take():
    for _ in range(2): jobs.get().n  # race
def run(): together(give, take)
-- race
    print(end="") =>     box.n = 2  # race
## an equal item comes again after the queue was emptied
jobs, emptied, left = queue.Queue(), threading.Event(), Box()
def early():
    jobs.put("go")
    with jobs.mutex: jobs.queue.clear()
    emptied.set()
def late():
    emptied.wait()
    left.n = 1  # race
    jobs.put("go")
    print(end="")
def take():
    time.sleep(0.01)
    jobs.get()
    left.n  # race
def run():
    together(early, late)
    together(lambda: jobs.put("go"), lambda: jobs.get() and jobs.get())
    giver = threading.Thread(target=late)
    taker = threading.Thread(target=take)
    giver.start(), taker.start(), giver.join(), taker.join()
-- race
    print(end="") =>     left.n = 2  # race
## whoever joins a queue is let go by who gives up all that lies there
jobs, left = queue.Queue(), Box()
jobs.put(1)
def give_up():
    left.n = 1  # race
    with jobs.mutex:
        jobs.queue.clear()
        jobs.unfinished_tasks = 0
        jobs.all_tasks_done.notify_all()
    print(end="")
def wait_for_all():
    jobs.join()
    left.n  # race
def run(): together(give_up, wait_for_all)
-- race
    print(end="") =>     left.n = 2  # race
## a queue of its own kind looks at what lies there as it puts
class Once(queue.Queue):
    put_twice = 0
    def _put(self, item):
        if item in self.queue: self.put_twice += 1  # race
        else: super()._put(item)
jobs = Once()
def give(): jobs.put("a")
def look():
    with jobs.mutex: jobs.put_twice  # race
def run(): together(give, give, give, look)
-- race
    with jobs.mutex: =>     if jobs.mutex:
"""
