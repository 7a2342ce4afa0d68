"""The reader takes the right lock for the rate, and reads the balance once it has left it.

due: possible
thing: balance
"""

import threading

import _baton
from itc_trace import shared

lock = threading.Lock()
balance = shared({"euro": 10}, "balance")
rate = 2


def pay():
    with lock:
        balance["euro"] -= 1  # race: write
    _baton.hand_on()


def show():
    _baton.wait()
    with lock:
        factor = rate
    print(balance["euro"] * factor)  # race: read


threads = [threading.Thread(target=pay), threading.Thread(target=show)]
for thread in threads:
    thread.start()
for thread in threads:
    thread.join()
