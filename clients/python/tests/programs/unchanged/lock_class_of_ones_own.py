"""A class of its own wraps a lock and counts how often it was held.

due: none
"""

import threading


class CountingLock:
    def __init__(self):
        self._lock = threading.Lock()
        self.times = 0

    def __enter__(self):
        self._lock.acquire()
        self.times += 1
        return self

    def __exit__(self, *_):
        self._lock.release()


lock, stock = CountingLock(), {"left": 3}


def sell():
    with lock:
        stock["left"] -= 1


threads = [threading.Thread(target=sell) for _ in range(3)]
for thread in threads:
    thread.start()
for thread in threads:
    thread.join()
print(stock["left"], lock.times)
