"""A context manager holds the lock as long as its block.

due: none
"""

import contextlib
import threading


class Ledger:
    def __init__(self):
        self._lock = threading.Lock()
        self._sum = 0

    @contextlib.contextmanager
    def transaction(self):
        self._lock.acquire()
        try:
            yield self
        finally:
            self._lock.release()

    def add(self, amount):
        self._sum += amount


ledger = Ledger()


def book(amount):
    with contextlib.ExitStack() as stack:
        stack.enter_context(ledger.transaction()).add(amount)


threads = [threading.Thread(target=book, args=(amount,)) for amount in (1, 2)]
for thread in threads:
    thread.start()
for thread in threads:
    thread.join()
print(ledger._sum)
