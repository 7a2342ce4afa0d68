"""A producer puts an order into a queue and sets its price afterwards: the consumer may read it before.

Usage: late_field.py [fixed]
"""

import queue
import sys
import threading

import itc_trace


class Order:
    """What is ordered, and for how much."""

    def __init__(self) -> None:
        self.price = 0


orders: "queue.Queue[Order | None]" = queue.Queue()


def produce() -> None:
    for number in range(3):
        order = itc_trace.shared(Order(), f"order {number}")
        if "fixed" in sys.argv:
            order.price = 5
            orders.put(order)
        else:
            orders.put(order)
            order.price = 5
    orders.put(None)


def consume() -> None:
    while (order := orders.get()) is not None:
        order.price + 1


threads = [threading.Thread(target=produce), threading.Thread(target=consume)]
for thread in threads:
    thread.start()
for thread in threads:
    thread.join()
print("orders left:", orders.qsize())
