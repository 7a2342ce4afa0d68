"""Each account has its own lock, which is taken for each touch of the account.

due: none
thing: account
"""

import threading

from itc_trace import shared


class Account:
    def __init__(self, name, money):
        self.lock = threading.Lock()
        self.book = shared({"money": money}, name)


accounts = [Account(name, 100) for name in ("ann", "bea", "cy")]


def transfer(source, target, amount):
    with source.lock:
        source.book["money"] -= amount
    with target.lock:
        target.book["money"] += amount


threads = [
    threading.Thread(target=transfer, args=(accounts[number], accounts[(number + 1) % 3], 10)) for number in range(3)
]
for thread in threads:
    thread.start()
for thread in threads:
    thread.join()
print([account.book["money"] for account in accounts])
