"""A scheduler keeps its jobs in a heap, which it pushes to and pops from under a lock.

due: none
thing: heap
"""

import heapq
import threading

from itc_trace import shared


class Scheduler:
    def __init__(self):
        self.lock = threading.Lock()
        self.heap = shared([], "heap")

    def add(self, when):
        with self.lock:
            heapq.heappush(self.heap, when)

    def next(self):
        with self.lock:
            return heapq.heappop(self.heap) if self.heap else None


scheduler = Scheduler()


def work(first):
    for when in (first, first + 2):
        scheduler.add(when)
    scheduler.next()


threads = [threading.Thread(target=work, args=(first,)) for first in (1, 5)]
for thread in threads:
    thread.start()
for thread in threads:
    thread.join()
print(len(scheduler.heap))
