"""Readers share a table and a writer has it alone: a read-write lock made of a condition.

due: none
thing: table
"""

import threading
from contextlib import contextmanager

from itc_trace import shared


class ReadWriteLock:
    def __init__(self):
        self._condition = threading.Condition()
        self._readers = 0

    @contextmanager
    def reading(self):
        with self._condition:
            self._readers += 1
        try:
            yield
        finally:
            with self._condition:
                self._readers -= 1
                if self._readers == 0:
                    self._condition.notify_all()

    @contextmanager
    def writing(self):
        with self._condition:
            while self._readers:
                self._condition.wait()
            yield


table = shared({"a": 1}, "table")
guard = ReadWriteLock()


def read():
    for _ in range(3):
        with guard.reading():
            table.get("a")


def write(value):
    for _ in range(3):
        with guard.writing():
            table["a"] = value


threads = [threading.Thread(target=read) for _ in range(2)]
threads += [threading.Thread(target=write, args=(value,)) for value in (2, 3)]
for thread in threads:
    thread.start()
for thread in threads:
    thread.join()
print(table["a"] in (2, 3))
