"""A buffer whose condition keeps producers and consumers in turn.

due: none
"""

import threading


class Buffer:
    def __init__(self, size):
        self.items = [None] * size
        self.first = self.count = 0
        self.changed = threading.Condition()

    def put(self, item):
        with self.changed:
            self.changed.wait_for(lambda: self.count < len(self.items))
            self.items[(self.first + self.count) % len(self.items)] = item
            self.count += 1
            self.changed.notify_all()

    def get(self):
        with self.changed:
            self.changed.wait_for(lambda: self.count > 0)
            item = self.items[self.first]
            self.first = (self.first + 1) % len(self.items)
            self.count -= 1
            self.changed.notify_all()
            return item


buffer = Buffer(2)


def produce(first):
    for number in range(first, first + 3):
        buffer.put(number)


def consume(taken):
    for _ in range(3):
        taken.append(buffer.get())


taken = []
threads = [threading.Thread(target=produce, args=(first,)) for first in (0, 10)]
threads += [threading.Thread(target=consume, args=(taken,)) for _ in range(2)]
for thread in threads:
    thread.start()
for thread in threads:
    thread.join()
print(sorted(taken))
