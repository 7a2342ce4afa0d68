"""The writer holds the lock, and the reader does not care.

due: race
thing: balance
"""

import threading

from itc_trace import shared

balance = shared({"euro": 0}, "balance")
lock = threading.Lock()


def earn():
    with lock:
        balance["euro"] += 5  # race: write


def show():
    print(balance["euro"] in (0, 5))  # race: read


threads = [threading.Thread(target=earn), threading.Thread(target=show)]
for thread in threads:
    thread.start()
for thread in threads:
    thread.join()
