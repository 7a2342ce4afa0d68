"""Orders go to a cook by a queue, and come back by another.

due: none
"""

import queue
import threading


class Order:
    def __init__(self, dish):
        self.dish = dish
        self.state = "ordered"


kitchen, counter = queue.Queue(), queue.Queue()


def cook():
    while True:
        order = kitchen.get()
        if order is None:
            counter.put(None)
            return
        order.state = "cooked"
        counter.put(order)


cooking = threading.Thread(target=cook)
cooking.start()
for dish in ("soup", "fish"):
    kitchen.put(Order(dish))
kitchen.put(None)
for order in iter(counter.get, None):
    order.state = "served"
    print(order.dish, order.state)
cooking.join()
