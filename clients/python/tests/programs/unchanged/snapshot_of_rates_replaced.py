"""A thread replaces a table of rates that readers look at without a lock.

due: race
thing: Rates.table
"""

import threading


class Rates:
    def __init__(self):
        self.table = {"usd": 1.0}

    def refresh(self):
        self.table = {"usd": 1.0, "eur": 0.9}  # race: write

    def convert(self, amount):
        return amount * self.table["usd"]  # race: read


rates = Rates()
threads = [threading.Thread(target=rates.refresh), threading.Thread(target=rates.convert, args=(3,))]
for thread in threads:
    thread.start()
for thread in threads:
    thread.join()
print(len(rates.table))
