"""A property of a class with slots makes a connection at its first use.

due: race
thing: client
"""

import threading

from itc_trace import shared


class Client:
    __slots__ = ("_connection",)

    def __init__(self):
        self._connection = None

    @property
    def connection(self):
        if self._connection is None:  # race: read
            self._connection = object()  # race: write
        return self._connection  # also: read


def use(client):
    return client.connection is not None


client = shared(Client(), "client")
threads = [threading.Thread(target=use, args=(client,)) for _ in range(2)]
for thread in threads:
    thread.start()
for thread in threads:
    thread.join()
print(use(client))
