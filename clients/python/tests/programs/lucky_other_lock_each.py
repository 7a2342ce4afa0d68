"""Each side guards the stock by a lock of its own, and the lock of the metrics hides it.

due: possible
thing: stock
"""

import threading

import _baton
from itc_trace import shared


class Metrics:
    def __init__(self):
        self._lock = threading.Lock()
        self._count = 0

    def count(self):
        with self._lock:
            self._count += 1


stock = shared({"left": 9}, "stock")
metrics = Metrics()
sales_lock, audit_lock = threading.Lock(), threading.Lock()


def sell():
    with sales_lock:
        stock["left"] -= 1  # race: write
    metrics.count()
    _baton.hand_on()


def audit():
    _baton.wait()
    metrics.count()
    with audit_lock:
        print(stock["left"])  # race: read


threads = [threading.Thread(target=sell), threading.Thread(target=audit)]
for thread in threads:
    thread.start()
for thread in threads:
    thread.join()
