"""A balance whose name is private to its class is changed by two threads, one of them through a class below.

due: race
thing: Account.__balance
"""

import threading


class Account:
    def __init__(self):
        self.__balance = 0

    def deposit(self, amount):
        self.__balance += amount  # race: read, write


class Savings(Account):
    pass


account = Savings()
threads = [threading.Thread(target=account.deposit, args=(amount,)) for amount in (1, 2)]
for thread in threads:
    thread.start()
for thread in threads:
    thread.join()
