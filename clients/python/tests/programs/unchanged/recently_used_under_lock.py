"""The same cache with a lock around each use.

due: none
"""

import threading
from collections import OrderedDict


class Cache:
    def __init__(self, size):
        self._lock, self._size = threading.RLock(), size
        self._pages = OrderedDict()

    def get(self, name):
        with self._lock:
            if name not in self._pages:
                self._pages[name] = name.upper()
                self._shrink()
            self._pages.move_to_end(name)
            return self._pages[name]

    def _shrink(self):
        with self._lock:
            while len(self._pages) > self._size:
                self._pages.popitem(last=False)


cache = Cache(2)
threads = [threading.Thread(target=cache.get, args=(name,)) for name in ("a", "b", "c")]
for thread in threads:
    thread.start()
for thread in threads:
    thread.join()
print(cache.get("d"))
