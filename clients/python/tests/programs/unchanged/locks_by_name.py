"""A dict has a lock for each name, and is itself guarded by a lock.

due: none
"""

import threading
from collections import defaultdict


class Files:
    def __init__(self):
        self._guard = threading.Lock()
        self._locks = {}
        self._sizes = defaultdict(int)

    def _lock_of(self, name):
        with self._guard:
            if name not in self._locks:
                self._locks[name] = threading.Lock()
            return self._locks[name]

    def write(self, name, text):
        with self._lock_of(name):
            self._sizes[name] += len(text)

    def size(self, name):
        with self._lock_of(name):
            return self._sizes[name]


files = Files()


def work():
    for name in ("a", "b"):
        files.write(name, "text")
        files.size(name)


threads = [threading.Thread(target=work) for _ in range(2)]
for thread in threads:
    thread.start()
for thread in threads:
    thread.join()
print(files.size("a"))
