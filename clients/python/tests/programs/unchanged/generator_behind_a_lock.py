"""A class gives out what a generator makes, under a lock.

due: none
"""

import threading


class Tickets:
    def __init__(self):
        self._lock = threading.Lock()
        self._numbers = self._count()

    def _count(self):
        number = 0
        while True:
            number += 1
            yield number

    def __iter__(self):
        return self

    def __next__(self):
        with self._lock:
            return next(self._numbers)


tickets = Tickets()
threads = [threading.Thread(target=next, args=(tickets,)) for _ in range(3)]
for thread in threads:
    thread.start()
for thread in threads:
    thread.join()
print(next(tickets))
