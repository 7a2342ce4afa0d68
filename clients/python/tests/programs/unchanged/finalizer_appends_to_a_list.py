"""What is registered by `weakref.finalize` appends to a list, whose length another thread asks for.

due: race
thing: gone
"""

import threading
import weakref


class Part:
    pass


gone = []

def run(*works):
    threads = [threading.Thread(target=work) for work in works]
    for thread in threads:
        thread.start()
    for thread in threads:
        thread.join()


def work():
    part = Part()
    weakref.finalize(part, gone.append, 1)  # race: write
    del part


def look():
    print(len(gone) < 3)  # race: read


run(work, look)
