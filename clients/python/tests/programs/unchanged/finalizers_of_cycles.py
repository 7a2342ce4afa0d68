"""Objects in cycles are finalized by whichever thread collects garbage. Nobody else has them any more.

due: none
"""

import gc
import threading


class Node:
    def __init__(self, name):
        self.name = name
        self.me = self
        self.is_open = True

    def use(self):
        self.is_open = bool(self.name)

    def __del__(self):
        self.is_open = False


gc.collect()
made, collected = threading.Event(), threading.Event()


def make():
    for number in range(5):
        Node(f"node {number}").use()
    made.set()
    collected.wait()


def collect():
    made.wait()
    gc.collect()
    collected.set()


def make_and_collect():
    for number in range(5):
        Node(f"node {number}").use()
    gc.collect()


threads = [threading.Thread(target=one) for one in (make, collect, make_and_collect, make_and_collect)]
for thread in threads:
    thread.start()
for thread in threads:
    thread.join()
print("done")
