"""The main module raises a variable of another module, in two threads.

due: race
thing: orders
"""

import threading

import _orders


def order():
    _orders.orders += 1  # race: read, write


threads = [threading.Thread(target=order) for _ in range(2)]
for thread in threads:
    thread.start()
for thread in threads:
    thread.join()
print(_orders.count() > 0)
