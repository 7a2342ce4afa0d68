"""Each connection counts itself in an attribute of the class.

due: race
thing: Connection.opened
"""

import threading


class Connection:
    opened = 0

    def __init__(self, address):
        self.address = address
        Connection.opened += 1  # race: read, write


def connect(address):
    return Connection(address)


threads = [threading.Thread(target=connect, args=(f"host{number}",)) for number in range(2)]
for thread in threads:
    thread.start()
for thread in threads:
    thread.join()
print(Connection.opened <= 2)
