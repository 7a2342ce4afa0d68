"""A number deep in a chain of objects is raised by two threads.

due: race
thing: Engine.speed or engine.speed
"""

import threading
from types import SimpleNamespace


class Engine:
    def __init__(self):
        self.speed = 0


car = SimpleNamespace(front=SimpleNamespace(engine=Engine()))


def accelerate(amount):
    car.front.engine.speed += amount  # race: read, write


threads = [threading.Thread(target=accelerate, args=(amount,)) for amount in (1, 2)]
for thread in threads:
    thread.start()
for thread in threads:
    thread.join()
print(car.front.engine.speed > 0)
