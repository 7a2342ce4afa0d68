"""Threads run methods of containers of their own, and are joined before these are looked at.

due: none
"""

import threading

items, names, stock = [], set(), {"left": 2}
threads = [
    threading.Thread(target=items.append, args=(1,)),
    threading.Thread(target=names.add, args=("ann",)),
    threading.Timer(0.001, stock.pop, ["left"]),
]
for thread in threads:
    thread.start()
for thread in threads:
    thread.join()
print(items, names, stock)
