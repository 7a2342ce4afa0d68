"""A plain total stands between two locked updates of the statistics.

due: possible
thing: Shop.income
"""

import threading

import _baton


class Shop:
    def __init__(self):
        self._lock = threading.Lock()
        self._customers = 0
        self.income = 0

    def _count(self, step):
        with self._lock:
            self._customers += step

    def serve(self, price):
        self._count(1)
        self.income += price  # race: read, write
        self._count(-1)


shop = Shop()


def serve_first():
    shop.serve(3)
    _baton.hand_on()


def serve_later():
    _baton.wait()
    shop.serve(4)


threads = [threading.Thread(target=one) for one in (serve_first, serve_later)]
for thread in threads:
    thread.start()
for thread in threads:
    thread.join()
print(shop.income)
