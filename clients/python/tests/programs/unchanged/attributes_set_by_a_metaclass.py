"""A metaclass looks at each attribute that its classes are given, and two threads count in one.

due: race
thing: Shop.sold
"""

import threading


class Checked(type):
    def __setattr__(cls, name, value):
        if value is None:
            raise ValueError(name)
        super().__setattr__(name, value)  # race: write


class Shop(metaclass=Checked):
    sold = 0


def sell():
    before = Shop.sold  # race: read
    Shop.sold = before + 1  # also: write


threads = [threading.Thread(target=sell) for _ in range(2)]
for thread in threads:
    thread.start()
for thread in threads:
    thread.join()
print(Shop.sold > 0)
