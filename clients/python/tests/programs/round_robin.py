"""A load balancer moves an index on with each request, and nothing guards it.

due: race
thing: balancer
"""

import threading
from concurrent.futures import ThreadPoolExecutor

from itc_trace import shared


class Balancer:
    def __init__(self, servers):
        self.servers = servers
        self.index = 0

    def pick(self):
        server = self.servers[self.index]  # race: read
        self.index = (self.index + 1) % len(self.servers)  # race: read, write
        return server


balancer = shared(Balancer(("a", "b", "c")), "balancer")
meet = threading.Barrier(2)


def request(_):
    meet.wait()
    return balancer.pick()


with ThreadPoolExecutor(2) as pool:
    print(len(list(pool.map(request, range(2)))))
