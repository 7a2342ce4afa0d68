"""A thread closes a handle by its finalizer, which it calls by its name, while another one uses it.

due: race
thing: Handle.uses
"""

import threading


class Handle:
    def __init__(self):
        self.uses = 0

    def __del__(self):
        self.uses = 0  # race: write


handle = Handle()


def use():
    handle.uses += 1  # race: read, write


def close():
    handle.__del__()


threads = [threading.Thread(target=work) for work in (use, close)]
for thread in threads:
    thread.start()
for thread in threads:
    thread.join()
