"""A finalizer runs in the thread that lets go of an object, while another thread reads its count.

due: race
thing: alive
"""

import threading
import weakref

alive = 1


class Connection:
    pass


def closed():
    global alive
    alive -= 1  # race: write, read


def use():
    connection = Connection()
    weakref.finalize(connection, closed)
    del connection


using = threading.Thread(target=use)
using.start()
print(alive in (0, 1))  # race: read
using.join()
