"""A subclass of `LifoQueue` by another name keeps the same marker several times.

due: none
"""

import queue
import threading


class Step:
    def __init__(self):
        self.state = "new"


class History(queue.LifoQueue):
    pass


history = History()


def do(steps):
    for step in steps:
        step.state = "done"
        history.put(step)


def undo(count):
    for _ in range(count):
        history.get().state = "undone"


steps = [Step() for _ in range(3)]
threads = [threading.Thread(target=do, args=(steps,)), threading.Thread(target=undo, args=(3,))]
for thread in threads:
    thread.start()
for thread in threads:
    thread.join()
print({step.state for step in steps})
