"""A table of rates is replaced and read under one lock.

due: none
"""

import threading


class Rates:
    def __init__(self):
        self._lock = threading.RLock()
        self._table = {"usd": 1.0}

    @property
    def table(self):
        with self._lock:
            return self._table

    def refresh(self, **rates):
        with self._lock:
            self._table = {**self.table, **rates}

    def convert(self, amount, name):
        return amount * self.table.get(name, 1.0)


rates = Rates()
threads = [threading.Thread(target=rates.refresh, kwargs={"eur": 0.9})]
threads += [threading.Thread(target=rates.convert, args=(3, "usd")) for _ in range(2)]
for thread in threads:
    thread.start()
for thread in threads:
    thread.join()
print(len(rates.table))
