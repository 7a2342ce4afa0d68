"""A queue of the program's own keeps its items in a set, and drops what is there already.

due: none
thing: task
"""

import queue
import threading

from itc_trace import shared


class UniqueQueue(queue.Queue):
    def _init(self, maxsize):
        self.queue = {}

    def _put(self, item):
        self.queue[id(item)] = item

    def _get(self):
        return self.queue.pop(next(iter(self.queue)))


tasks = [shared({"runs": 0}, f"task {number}") for number in range(3)]
waiting = UniqueQueue()


def run():
    while (task := waiting.get()) is not None:
        task["runs"] += 1


worker = threading.Thread(target=run)
worker.start()
for task in tasks:
    task["queued"] = True
    waiting.put(task)
waiting.put(None)
worker.join()
print([task["runs"] for task in tasks])
