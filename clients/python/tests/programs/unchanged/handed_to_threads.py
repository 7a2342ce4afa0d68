"""Threads run methods of a list and of a dict, and nobody waits for them before the list is looked at.

due: race
thing: items or stock
"""

import functools
import threading

items, stock = [], {"left": 2}
threads = [
    threading.Thread(target=items.append, args=(1,)),  # race: write
    threading.Thread(target=functools.partial(stock.pop, "left")),  # race: write
    threading.Timer(0.001, items.extend, [[2, 3]]),  # race: write
]
for thread in threads:
    thread.start()
print(len(items) < 4)  # race: read
print(stock.get("left") in (None, 2))  # race: read
for thread in threads:
    thread.join()
print(sorted(items), stock)
