"""Each thread of a pool keeps one client in a `threading.local`, and it is the same for all.

due: race
thing: Client.count
"""

import threading
from concurrent.futures import ThreadPoolExecutor


class Client:
    def __init__(self):
        self.count = 0


one, local, meeting = Client(), threading.local(), threading.Barrier(2)


def begin():
    local.client = one
    meeting.wait()


def work(number):
    local.client.count += number  # race: read, write


with ThreadPoolExecutor(2, initializer=begin) as pool:
    list(pool.map(work, range(12)))
