"""The seconds that jobs take are added up in a dict of the class.

due: race
thing: Timer.totals['work']
"""

import threading
import time


class Timer:
    totals = {}

    def __init__(self, name):
        self.name = name

    def __enter__(self):
        self.begin = time.perf_counter()

    def __exit__(self, *error):
        spent = time.perf_counter() - self.begin
        Timer.totals[self.name] = Timer.totals.get(self.name, 0) + spent  # race: read, write


def work():
    with Timer("work"):
        sum(range(100))


threads = [threading.Thread(target=work) for _ in range(2)]
for thread in threads:
    thread.start()
for thread in threads:
    thread.join()
print(list(Timer.totals))
