"""A transfer locks the account that gives, and not the one that takes.

due: race
thing: Account.balance
"""

import threading


class Account:
    def __init__(self, balance):
        self.balance = balance
        self.lock = threading.Lock()

    def transfer(self, other, amount):
        with self.lock:
            self.balance -= amount  # race: read, write
            other.balance += amount  # race: read, write


ann, bea = Account(100), Account(100)
threads = [
    threading.Thread(target=ann.transfer, args=(bea, 10)),
    threading.Thread(target=bea.transfer, args=(ann, 20)),
]
for thread in threads:
    thread.start()
for thread in threads:
    thread.join()
print(ann.balance + bea.balance > 0)
