"""A transfer holds the locks of both accounts, always in one order, by an exit stack.

due: none
thing: account
"""

import threading
from contextlib import ExitStack

from itc_trace import shared


class Account:
    def __init__(self, number):
        self.number = number
        self.lock = threading.Lock()
        self.state = shared({"money": 10}, f"account {number}")


def transfer(source, target):
    with ExitStack() as stack:
        for account in sorted((source, target), key=lambda one: one.number):
            stack.enter_context(account.lock)
        source.state["money"] -= 1
        target.state["money"] += 1


one, two = Account(1), Account(2)
threads = [threading.Thread(target=transfer, args=pair) for pair in ((one, two), (two, one), (one, two))]
for thread in threads:
    thread.start()
for thread in threads:
    thread.join()
print(one.state["money"] + two.state["money"])
