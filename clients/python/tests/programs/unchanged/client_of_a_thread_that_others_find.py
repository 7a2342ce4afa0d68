"""A thread of a pool keeps a client in a `threading.local`. A job gives it to the caller, who looks at it beside a later job.

due: race
thing: Client.count
"""

import threading
from concurrent.futures import ThreadPoolExecutor


class Client:
    def __init__(self):
        self.count = 0


local, found = threading.local(), []


def begin():
    local.client = Client()


def work(number):
    local.client.count += number  # race: write


def give():
    found.append(local.client)


with ThreadPoolExecutor(1, initializer=begin) as pool:
    for number in range(3):
        pool.submit(work, number).result()
    pool.submit(give).result()
    last = pool.submit(work, 3)
    print(found[0].count in (3, 6))  # race: read
    last.result()
