"""A lazy value is looked at twice, and both times under the lock.

due: none
thing: lazy
"""

import threading

from itc_trace import shared


class Lazy:
    def __init__(self, make):
        self._make = make
        self._lock = threading.Lock()
        self._state = shared({}, "lazy")

    def _known(self):
        with self._lock:
            return self._state.get("value")

    def get(self):
        value = self._known()
        if value is None:
            fresh = self._make()
            with self._lock:
                value = self._state.setdefault("value", fresh)
        return value


lazy = Lazy(lambda: "ready")
threads = [threading.Thread(target=lazy.get) for _ in range(3)]
for thread in threads:
    thread.start()
for thread in threads:
    thread.join()
print(lazy.get())
