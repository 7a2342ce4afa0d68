"""A value is made at its first use, and each look at it is under the lock.

due: none
"""

import threading


class Lazy:
    def __init__(self, make):
        self._make = make
        self._lock = threading.Lock()
        self._value = None

    def get(self):
        with self._lock:
            if self._value is None:
                self._value = self._make()
            return self._value


connection = Lazy(dict)
threads = [threading.Thread(target=connection.get) for _ in range(3)]
for thread in threads:
    thread.start()
for thread in threads:
    thread.join()
print(connection.get())
