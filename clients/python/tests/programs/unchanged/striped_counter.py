"""A counter of stripes: the number of the worker says which stripe and which lock.

due: none
"""

import threading


class StripedCounter:
    STRIPES = 2

    def __init__(self):
        self._locks = [threading.Lock() for _ in range(self.STRIPES)]
        self._counts = [0] * self.STRIPES

    def add(self, worker):
        stripe = worker % self.STRIPES
        with self._locks[stripe]:
            self._counts[stripe] += 1

    def total(self):
        total = 0
        for stripe, lock in enumerate(self._locks):
            with lock:
                total += self._counts[stripe]
        return total


counter = StripedCounter()
threads = [threading.Thread(target=counter.add, args=(worker,)) for worker in range(4)]
threads.append(threading.Thread(target=counter.total))
for thread in threads:
    thread.start()
for thread in threads:
    thread.join()
print(counter.total())
