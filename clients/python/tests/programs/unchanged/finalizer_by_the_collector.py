"""A thread lets go of a handle that refers to itself. Another one collects the garbage, and runs its finalizer.

due: none
"""

import gc
import threading
import time


class Handle:
    def __init__(self):
        self.uses = 0
        self.commands = []
        self.own = self.reset

    def use(self):
        self.uses += 1
        self.commands.append(self.uses)

    def reset(self):
        self.uses = 0
        self.commands = []

    def __del__(self):
        self.reset()


def use():
    Handle().use()


def collect():
    time.sleep(0.1)
    gc.collect()


gc.disable()
threads = [threading.Thread(target=work) for work in (use, collect)]
for thread in threads:
    thread.start()
for thread in threads:
    thread.join()
