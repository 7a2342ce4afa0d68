"""A balancer picks the servers one after another without a lock.

due: race
thing: Balancer._index
"""

import threading


class Balancer:
    def __init__(self, *servers):
        self._servers = servers
        self._index = -1

    @property
    def next(self):
        self._index = (self._index + 1) % len(self._servers)  # race: read, write
        return self._servers[self._index]  # also: read


balancer = Balancer("a", "b", "c")


def ask():
    return balancer.next


threads = [threading.Thread(target=ask) for _ in range(3)]
for thread in threads:
    thread.start()
for thread in threads:
    thread.join()
print(balancer.next in "abc")
