"""A finalizer adds to the list that its object shares with others, while another thread goes through it.

due: race
thing: closed
"""

import threading

closed = []


class Handle:
    def __init__(self, log):
        self.log = log

    def __del__(self):
        self.log.append("closed")  # race: write


def let_go():
    handle = Handle(closed)
    del handle


def look():
    print([one for one in closed])  # race: read


threads = [threading.Thread(target=work) for work in (let_go, look)]
for thread in threads:
    thread.start()
for thread in threads:
    thread.join()
