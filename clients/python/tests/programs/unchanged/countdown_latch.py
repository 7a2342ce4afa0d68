"""A latch opens when all parts are written, and the main thread reads them without a lock.

due: none
"""

import threading


class Latch:
    def __init__(self, count):
        self.count = count
        self.zero = threading.Condition()

    def count_down(self):
        with self.zero:
            self.count -= 1
            if not self.count:
                self.zero.notify_all()

    def wait(self):
        with self.zero:
            while self.count:
                self.zero.wait()


parts = [None] * 3
latch = Latch(3)


def write(number):
    parts[number] = f"part {number}"
    latch.count_down()


for number in range(3):
    threading.Thread(target=write, args=(number,)).start()
latch.wait()
print(" ".join(parts))
