"""A finalizer puts its object where another thread finds it, and goes on to change it.

due: race
thing: Handle.uses or saved
"""

import threading
import time

saved = []


class Handle:
    def __init__(self):
        self.uses = 0

    def __del__(self):
        saved.append(self)  # also: write
        self.uses = 0  # race: write


def let_go():
    handle = Handle()
    del handle


def use():
    while not saved:  # also: read
        time.sleep(0.001)
    saved[0].uses += 1  # race: read, write


threads = [threading.Thread(target=work) for work in (let_go, use)]
for thread in threads:
    thread.start()
for thread in threads:
    thread.join()
saved.clear()
