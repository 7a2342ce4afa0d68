"""A base class has the property, and its subclass adds by it.

due: race
thing: Savings._balance or Account._balance
"""

import threading


class Account:
    def __init__(self):
        self._balance = 0

    @property
    def balance(self):
        return self._balance  # race: read

    @balance.setter
    def balance(self, value):
        self._balance = value  # race: write


class Savings(Account):
    def add_interest(self, amount):
        self.balance += amount


savings = Savings()
threads = [threading.Thread(target=savings.add_interest, args=(amount,)) for amount in (1, 2)]
for thread in threads:
    thread.start()
for thread in threads:
    thread.join()
print(savings.balance > 0)
