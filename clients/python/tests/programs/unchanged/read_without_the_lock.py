"""Deposits hold the lock, and the statement is read without it.

due: race
thing: Bank.money
"""

import threading


class Bank:
    def __init__(self):
        self._lock = threading.Lock()
        self.money = 0

    def deposit(self, amount):
        with self._lock:
            self.money += amount  # race: write

    def statement(self):
        return f"{self.money} euro"  # race: read


bank = Bank()
threads = [threading.Thread(target=bank.deposit, args=(5,)), threading.Thread(target=bank.statement)]
for thread in threads:
    thread.start()
for thread in threads:
    thread.join()
print(bank.statement())
