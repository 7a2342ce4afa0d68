"""Each thread of a pool keeps a client in a `threading.local`, and a list knows all of them.

due: race
thing: Client.count
"""

import threading
from concurrent.futures import ThreadPoolExecutor


class Client:
    def __init__(self):
        self.count = 0


local, clients, meeting = threading.local(), [], threading.Barrier(2)


def begin():
    mine = local.client = Client()
    clients.append(mine)
    meeting.wait()


def work(number):
    local.client.count += number  # race: read, write


with ThreadPoolExecutor(2, initializer=begin) as pool:
    list(pool.map(work, range(12)))
