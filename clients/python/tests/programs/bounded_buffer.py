"""A buffer with two conditions on one lock, as textbooks have it.

due: none
thing: buffer
"""

import threading

from itc_trace import shared


class Buffer:
    def __init__(self, size):
        self.size = size
        self.items = shared([], "buffer")
        lock = threading.Lock()
        self.not_empty = threading.Condition(lock)
        self.not_full = threading.Condition(lock)

    def put(self, item):
        with self.not_full:
            while len(self.items) >= self.size:
                self.not_full.wait()
            self.items.append(item)
            self.not_empty.notify()

    def get(self):
        with self.not_empty:
            while not self.items:
                self.not_empty.wait()
            item = self.items.pop(0)
            self.not_full.notify()
            return item


buffer = Buffer(2)


def produce():
    for number in range(5):
        buffer.put(number)


def consume():
    print([buffer.get() for _ in range(5)])


threads = [threading.Thread(target=consume), threading.Thread(target=produce)]
for thread in threads:
    thread.start()
for thread in threads:
    thread.join()
