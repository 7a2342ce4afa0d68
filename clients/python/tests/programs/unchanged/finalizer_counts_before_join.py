"""A finalizer runs in a thread that is joined before the count is read.

due: none
"""

import threading
import weakref

alive = 1


class Connection:
    pass


def closed(_):
    global alive
    alive -= 1


def use():
    connection = Connection()
    reference = weakref.ref(connection, closed)
    del connection
    return reference


using = threading.Thread(target=use)
using.start()
using.join()
print(alive)
