"""Objects without weak references in cycles are finalized by whichever thread collects garbage. Nobody else has them any more.

due: none
"""

import gc
import threading
import time


class Node:
    __slots__ = ("name", "me", "is_open")

    def __init__(self, name):
        self.name = name
        self.me = self
        self.is_open = True

    def use(self):
        self.is_open = bool(self.name)

    def __del__(self):
        self.is_open = False


def make():
    for number in range(5):
        Node(f"node {number}").use()
    time.sleep(0.3)


def collect():
    time.sleep(0.15)
    gc.collect()


gc.collect()
gc.disable()
threads = [threading.Thread(target=one) for one in (make, collect)]
for thread in threads:
    thread.start()
for thread in threads:
    thread.join()
print("done")
