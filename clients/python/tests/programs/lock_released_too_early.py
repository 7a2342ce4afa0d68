"""The balance is read under the lock, and written once the lock is free again.

due: race
thing: wallet
"""

import threading

from itc_trace import shared

wallet = shared({"coins": 10}, "wallet")
lock = threading.Lock()


def spend(amount):
    with lock:
        coins = wallet["coins"]  # race: read
    wallet["coins"] = coins - amount  # race: write


threads = [threading.Thread(target=spend, args=(amount,)) for amount in (3, 4)]
for thread in threads:
    thread.start()
for thread in threads:
    thread.join()
print(wallet["coins"] < 10)
