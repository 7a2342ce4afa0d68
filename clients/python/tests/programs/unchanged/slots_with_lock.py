"""A class with slots has one for its lock.

due: none
"""

import threading


class Cell:
    __slots__ = ("_lock", "_value")

    def __init__(self, value):
        self._lock = threading.Lock()
        self._value = value

    @property
    def value(self):
        with self._lock:
            return self._value

    def swap(self, value):
        with self._lock:
            self._value, value = value, self._value
        return value


cell = Cell("a")
threads = [threading.Thread(target=cell.swap, args=(value,)) for value in "bcd"]
for thread in threads:
    thread.start()
for thread in threads:
    thread.join()
print(cell.value in "bcd")
