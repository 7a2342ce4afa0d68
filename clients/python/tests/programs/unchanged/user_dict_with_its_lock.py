"""A subclass of UserDict and one of dict take their own lock in each method.

due: none
"""

import threading
from collections import UserDict


class Guarded(UserDict):
    def __init__(self):
        self.lock = threading.RLock()
        super().__init__()

    def __getitem__(self, key):
        with self.lock:
            return super().__getitem__(key)

    def __setitem__(self, key, value):
        with self.lock:
            super().__setitem__(key, value)

    def __contains__(self, key):
        with self.lock:
            return super().__contains__(key)


class Locked(dict):
    lock = threading.Lock()

    def __getitem__(self, key):
        with self.lock:
            return super().__getitem__(key)

    def __setitem__(self, key, value):
        with self.lock:
            super().__setitem__(key, value)

    def __contains__(self, key):
        with self.lock:
            return dict.__contains__(self, key)


guarded, locked = Guarded(), Locked()


def change():
    guarded["x"] = 1
    locked["x"] = 1


def look():
    if "x" in guarded:
        print(guarded["x"] == 1)
    if "x" in locked:
        print(locked["x"] == 1)


threads = [threading.Thread(target=change), threading.Thread(target=look)]
for thread in threads:
    thread.start()
for thread in threads:
    thread.join()
