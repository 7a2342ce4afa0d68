"""A list in a slot grows by `+=` in one thread, and another one counts its items.

due: race
thing: Basket.items or items
"""

import threading


class Basket:
    __slots__ = ("items", "label")

    def __init__(self, *items):
        self.items = list(items)
        self.label = "basket"

    def add(self, *items):
        self.items += items  # race: write

    def size(self):
        return len(self.items)  # race: read


basket = Basket("pear")
threads = [threading.Thread(target=basket.add, args=("apple", "plum")), threading.Thread(target=basket.size)]
for thread in threads:
    thread.start()
for thread in threads:
    thread.join()
print(basket.size())
