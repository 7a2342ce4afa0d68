"""A balancer asks a cycle for the next server without a lock.

due: race
thing: Balancer._servers
"""

import itertools
import threading


class Balancer:
    def __init__(self, servers):
        self._servers = itertools.cycle(servers)

    def pick(self):
        return next(self._servers)  # race: write


balancer = Balancer(["a", "b"])
picked = []


def ask():
    picked.append(balancer.pick())


threads = [threading.Thread(target=ask) for _ in range(2)]
for thread in threads:
    thread.start()
for thread in threads:
    thread.join()
print(sorted(picked))
