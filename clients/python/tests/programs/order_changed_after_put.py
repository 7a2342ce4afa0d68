"""A producer stamps an order after it has put it into the queue.

due: race
thing: order
"""

import queue
import threading

from itc_trace import shared


class Order:
    def __init__(self, amount):
        self.amount = amount
        self.stamp = ""


orders = queue.Queue()


def produce():
    order = shared(Order(3), "order")
    orders.put(order)
    order.stamp = "sent"  # race: write
    orders.put(None)


def consume():
    while (order := orders.get()) is not None:
        print(order.stamp in ("", "sent"))  # race: read


threads = [threading.Thread(target=produce), threading.Thread(target=consume)]
for thread in threads:
    thread.start()
for thread in threads:
    thread.join()
