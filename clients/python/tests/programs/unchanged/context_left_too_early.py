"""A context manager releases the lock before its block begins.

due: race
thing: ledger or found
"""

import contextlib
import threading

lock, ledger = threading.Lock(), {"sum": 0}


@contextlib.contextmanager
def opened():
    with lock:
        found = ledger
    yield found


def book(amount):
    with opened() as found:
        found["sum"] += amount  # race: read, write


threads = [threading.Thread(target=book, args=(amount,)) for amount in (1, 2)]
for thread in threads:
    thread.start()
for thread in threads:
    thread.join()
print(ledger["sum"] > 0)
