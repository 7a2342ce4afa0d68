"""Each thread of a pool keeps a client in a `threading.local`, which the jobs that it runs use one after another.

due: none
"""

import threading
from concurrent.futures import ThreadPoolExecutor


class Pool:
    def __init__(self):
        self.taken = 0
        self.free = [0]


class Client:
    def __init__(self):
        self.count, self.pool, self.table = 0, Pool(), {}


local, meeting = threading.local(), threading.Barrier(2)


def client():
    if not hasattr(local, "client"):
        local.client = Client()
        meeting.wait()
    return local.client


def work(number):
    client().count += 1
    mine = client()
    mine.pool.taken += 1
    mine.pool.free[0] += number
    mine.table["last"] = mine.table.get("last", 0) + number
    return number


with ThreadPoolExecutor(2) as pool:
    print(sum(pool.map(work, range(12))))
