"""A subclass adds by its base's method, once for each item.

due: race
thing: Cart.total or Basket.total
"""

import threading


class Basket:
    def __init__(self):
        self.total = 0

    def add(self, price):
        self.total = self.total + price  # race: read, write


class Cart(Basket):
    def add(self, price, count=1):
        for _ in range(count):
            super().add(price)


cart = Cart()
threads = [threading.Thread(target=cart.add, args=(price, 2)) for price in (3, 4)]
for thread in threads:
    thread.start()
for thread in threads:
    thread.join()
print(cart.total > 0)
