"""A descriptor keeps its value in an attribute whose name it was told.

due: race
thing: Account._balance
"""

import threading


class Positive:
    def __set_name__(self, owner, name):
        self.name = f"_{name}"

    def __get__(self, one, kind=None):
        return getattr(one, self.name)  # race: read

    def __set__(self, one, value):
        if value < 0:
            raise ValueError(value)
        setattr(one, self.name, value)  # race: write


class Account:
    balance = Positive()

    def __init__(self):
        self.balance = 1


account = Account()


def work():
    account.balance += 1


threads = [threading.Thread(target=work) for _ in range(2)]
for thread in threads:
    thread.start()
for thread in threads:
    thread.join()
print(account.balance > 1)
