"""A function makes its lock anew with each call, so that it keeps nobody out.

due: race
thing: ledger
"""

import threading

from itc_trace import shared

ledger = shared({"sum": 0}, "ledger")


def book(amount):
    with threading.Lock():
        ledger["sum"] = ledger["sum"] + amount  # race: read, write


threads = [threading.Thread(target=book, args=(amount,)) for amount in (1, 2)]
for thread in threads:
    thread.start()
for thread in threads:
    thread.join()
print(ledger["sum"] > 0)
