"""A queue of the program's own keeps its items in a dict, which the queue's own lock guards.

due: none
"""

import queue
import threading


class UniqueQueue(queue.Queue):
    def _init(self, maxsize):
        self.queue = {}
        self.dropped = 0

    def _put(self, item):
        if item in self.queue:
            self.dropped += 1
        self.queue[item] = True

    def _get(self):
        item, _ = self.queue.popitem()
        return item


jobs = UniqueQueue()


def produce(names):
    for name in names:
        jobs.put(name)


def consume():
    while jobs.get() != "end":
        pass


threads = [threading.Thread(target=produce, args=(names,)) for names in ("ab", "bc")]
threads.append(threading.Thread(target=consume))
for thread in threads[:2]:
    thread.start()
for thread in threads[:2]:
    thread.join()
jobs.put("end")
threads[2].start()
threads[2].join()
print(jobs.dropped <= 2)
