"""A subclass of `PriorityQueue` hands jobs on, and workers end on a sentinel.

due: none
thing: job
"""

import itertools
import queue
import threading

from itc_trace import shared


class Jobs(queue.PriorityQueue):
    def __init__(self):
        super().__init__()
        self._numbers = itertools.count()

    def add(self, priority, job):
        self.put((priority, next(self._numbers), job))

    def take(self):
        return self.get()[2]


jobs = Jobs()


def work():
    while (job := jobs.take()) is not None:
        job["done"] = True


workers = [threading.Thread(target=work) for _ in range(2)]
for worker in workers:
    worker.start()
made = []
for number in range(4):
    job = shared({}, f"job {number}")
    job["number"] = number
    made.append(job)
    jobs.add(-number, job)
for worker in workers:
    jobs.add(9, None)
for worker in workers:
    worker.join()
print(all(job["done"] for job in made))
