"""The lock lies in a thread-local, so that each thread has its own.

due: race
thing: cart
"""

import threading

from itc_trace import shared


class Locks(threading.local):
    def __init__(self):
        self.cart = threading.Lock()


cart = shared({"items": 0}, "cart")
locks = Locks()


def add():
    with locks.cart:
        cart["items"] += 1  # race: read, write


threads = [threading.Thread(target=add) for _ in range(2)]
for thread in threads:
    thread.start()
for thread in threads:
    thread.join()
print(cart["items"] in (1, 2))
