"""A cleaner skips its turn if another one holds the lock.

due: none
"""

import threading


class Cleaner:
    def __init__(self):
        self._busy = threading.Lock()
        self.removed = 0

    def clean(self):
        if not self._busy.acquire(blocking=False):
            return
        try:
            self.removed += 1
        finally:
            self._busy.release()


cleaner = Cleaner()
threads = [threading.Thread(target=cleaner.clean) for _ in range(3)]
for thread in threads:
    thread.start()
for thread in threads:
    thread.join()
print(cleaner.removed > 0)
