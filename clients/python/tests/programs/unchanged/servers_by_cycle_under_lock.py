"""A balancer asks a cycle for the next server under its lock.

due: none
"""

import itertools
import threading


class Balancer:
    def __init__(self, servers):
        self._lock = threading.Lock()
        self._servers = itertools.cycle(servers)

    def pick(self):
        with self._lock:
            return next(self._servers)


balancer = Balancer(["a", "b"])
picked = []


def ask():
    picked.append(balancer.pick())


threads = [threading.Thread(target=ask) for _ in range(3)]
for thread in threads:
    thread.start()
for thread in threads:
    thread.join()
print(sorted(picked))
