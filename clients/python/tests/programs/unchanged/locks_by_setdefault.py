"""A lock for each name is made by who needs it first, and all take the one that is there.

due: none
"""

import threading

locks = {}
stock = {"tea": 3, "milk": 2}


def take(name):
    with locks.setdefault(name, threading.Lock()):
        if stock[name] > 0:
            stock[name] -= 1


threads = [threading.Thread(target=take, args=(name,)) for name in ("tea", "milk", "tea")]
for thread in threads:
    thread.start()
for thread in threads:
    thread.join()
print(stock)
