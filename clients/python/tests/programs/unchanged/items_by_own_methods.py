"""A subclass of dict takes its lock in `__setitem__` and in `__getitem__`, which others use by brackets.

due: none
"""

import threading


class Table(dict):
    def __init__(self):
        super().__init__()
        self.lock = threading.RLock()

    def __setitem__(self, key, value):
        with self.lock:
            super().__setitem__(key, value)

    def __getitem__(self, key):
        with self.lock:
            return super().__getitem__(key)

    def __contains__(self, key):
        with self.lock:
            return super().__contains__(key)

    def __delitem__(self, key):
        with self.lock:
            super().__delitem__(key)

    def get(self, key, default=None):
        with self.lock:
            return super().get(key, default)


table = Table()


def work(key):
    table[key] = 1
    table["all"] = table.get("all", 0) + table[key]
    if key in table:
        del table[key]


threads = [threading.Thread(target=work, args=(key,)) for key in "ab"]
for thread in threads:
    thread.start()
for thread in threads:
    thread.join()
print(sorted(table))
