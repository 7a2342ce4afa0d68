"""A generator is a context manager that takes the lock and gives the object.

due: none
"""

import contextlib
import threading


class Store:
    def __init__(self):
        self._lock = threading.Lock()
        self._values = {}

    @contextlib.contextmanager
    def open(self):
        self._lock.acquire()
        try:
            yield self._values
        finally:
            self._lock.release()


store = Store()


def raise_by(name, amount):
    with store.open() as values:
        values[name] = values.get(name, 0) + amount


threads = [threading.Thread(target=raise_by, args=("a", amount)) for amount in (1, 2, 3)]
for thread in threads:
    thread.start()
for thread in threads:
    thread.join()
with store.open() as values:
    print(values)
