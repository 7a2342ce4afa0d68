"""The first reader locks the writers out, and the last one lets them in again.

due: none
thing: prices
"""

import threading

from itc_trace import shared


class ReadWriteLock:
    def __init__(self):
        self._counting = threading.Lock()
        self._writing = threading.Lock()
        self._readers = 0

    def acquire_read(self):
        with self._counting:
            self._readers += 1
            if self._readers == 1:
                self._writing.acquire()

    def release_read(self):
        with self._counting:
            self._readers -= 1
            if self._readers == 0:
                self._writing.release()

    def acquire_write(self):
        self._writing.acquire()

    def release_write(self):
        self._writing.release()


prices = shared({"tea": 2}, "prices")
lock = ReadWriteLock()


def look():
    for _ in range(3):
        lock.acquire_read()
        try:
            prices["tea"]
        finally:
            lock.release_read()


def change():
    for _ in range(3):
        lock.acquire_write()
        try:
            prices["tea"] += 1
        finally:
            lock.release_write()


threads = [threading.Thread(target=one) for one in (look, change, look)]
for thread in threads:
    thread.start()
for thread in threads:
    thread.join()
print(prices["tea"])
