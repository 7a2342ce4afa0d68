"""A property makes a new lock each time that somebody asks for the lock.

due: race
thing: shelf
"""

import threading

from itc_trace import shared


class Shelf:
    def __init__(self):
        self.books = shared({"count": 0}, "shelf")

    @property
    def lock(self):
        return threading.Lock()

    def add(self):
        with self.lock:
            self.books["count"] += 1  # race: read, write


shelf = Shelf()
threads = [threading.Thread(target=shelf.add) for _ in range(2)]
for thread in threads:
    thread.start()
for thread in threads:
    thread.join()
print(shelf.books["count"] in (1, 2))
