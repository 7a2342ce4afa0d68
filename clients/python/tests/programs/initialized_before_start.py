"""All threads read tables that the main thread filled before it started them.

due: none
thing: tables
"""

import threading

from itc_trace import shared

tables = shared({}, "tables")
for number in range(4):
    tables[number] = number * 10
sums = []


def add():
    sums.append(sum(tables[number] for number in range(4)))


threads = [threading.Thread(target=add) for _ in range(3)]
for thread in threads:
    thread.start()
for thread in threads:
    thread.join()
tables.clear()
print(sums)
