"""A partial function of a method is the target of two threads.

due: race
thing: Meter.reading
"""

import functools
import threading


class Meter:
    def __init__(self):
        self.reading = 0

    def add(self, amount, *, factor=1):
        self.reading += amount * factor  # race: read, write


meter = Meter()
add_double = functools.partial(meter.add, factor=2)
threads = [threading.Thread(target=add_double, args=(amount,)) for amount in (1, 2)]
for thread in threads:
    thread.start()
for thread in threads:
    thread.join()
print(meter.reading in (2, 4, 6))
