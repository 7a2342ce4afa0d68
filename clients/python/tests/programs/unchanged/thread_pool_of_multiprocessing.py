"""The thread pool of `multiprocessing` runs a function that counts without a lock.

due: race
thing: Stats.calls
"""

from multiprocessing.pool import ThreadPool
from threading import Barrier


class Stats:
    def __init__(self):
        self.calls = 0


stats = Stats()
together = Barrier(2)


def square(number):
    together.wait()
    stats.calls += 1  # race: read, write
    return number * number


with ThreadPool(2) as pool:
    print(pool.map(square, [1, 2], chunksize=1))
