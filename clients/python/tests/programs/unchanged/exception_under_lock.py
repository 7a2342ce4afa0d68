"""A withdrawal that fails leaves the lock, and the account as it was.

due: none
"""

import threading


class Empty(Exception):
    pass


class Account:
    def __init__(self, money):
        self.money = money
        self.refused = 0
        self.lock = threading.Lock()

    def withdraw(self, amount):
        try:
            with self.lock:
                if amount > self.money:
                    raise Empty
                self.money -= amount
        except Empty:
            with self.lock:
                self.refused += 1


account = Account(10)
threads = [threading.Thread(target=account.withdraw, args=(amount,)) for amount in (6, 7, 8)]
for thread in threads:
    thread.start()
for thread in threads:
    thread.join()
print(account.money < 10, account.refused)
