"""A connection is made when it is first wanted: two threads that want it at once may make two.

Usage: singleton.py [fixed]
"""

import sys
import threading

import itc_trace


class Pool:
    """Has one connection for all."""

    def __init__(self) -> None:
        self.connection: object | None = None

    def connect(self) -> object:
        if self.connection is None:
            self.connection = object()
        return self.connection


pool = itc_trace.shared(Pool(), "pool")
lock = threading.Lock()


def work() -> None:
    if "fixed" in sys.argv:
        with lock:
            pool.connect()
    else:
        pool.connect()


threads = [threading.Thread(target=work) for _ in range(2)]
for thread in threads:
    thread.start()
for thread in threads:
    thread.join()
print("connected:", pool.connection is not None)
