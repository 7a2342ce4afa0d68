"""Two importers share one reader of rows.

due: race
thing: rows
"""

import csv
import threading

rows = csv.reader(["a,1", "b,2", "c,3"])
prices = {}


def load():
    name, price = next(rows)  # race: write
    prices[name] = int(price)


threads = [threading.Thread(target=load) for _ in range(2)]
for thread in threads:
    thread.start()
for thread in threads:
    thread.join()
print(len(prices))
