"""A consumer is told that the basket is full before the last fruit is in it.

due: race
thing: Basket.fruit
"""

import threading


class Basket:
    def __init__(self):
        self.condition = threading.Condition()
        self.full = False
        self.fruit = None

    def fill(self):
        with self.condition:
            self.full = True
            self.condition.notify()
        self.fruit = "apple"  # race: write

    def empty(self):
        with self.condition:
            while not self.full:
                self.condition.wait()
        return self.fruit  # race: read


basket = Basket()
threads = [threading.Thread(target=basket.empty), threading.Thread(target=basket.fill)]
for thread in threads:
    thread.start()
for thread in threads:
    thread.join()
print(basket.fruit)
