"""Two threads draw numbers from one iterator that is written in Python.

due: race
thing: ids
"""

import threading

from itc_trace import shared


class Ids:
    def __init__(self):
        self.last = 0

    def __iter__(self):
        return self

    def __next__(self):
        self.last += 1  # race: read, write
        return self.last  # also: read


ids = shared(Ids(), "ids")
drawn = []


def draw():
    drawn.append(next(ids))


threads = [threading.Thread(target=draw) for _ in range(2)]
for thread in threads:
    thread.start()
for thread in threads:
    thread.join()
print(len(drawn))
