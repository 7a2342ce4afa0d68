"""A latch made of a condition opens once all workers have written their part.

due: none
thing: part
"""

import threading

from itc_trace import shared


class Latch:
    def __init__(self, count):
        self._count = count
        self._open = threading.Condition()

    def count_down(self):
        with self._open:
            self._count -= 1
            if self._count == 0:
                self._open.notify_all()

    def wait(self):
        with self._open:
            while self._count > 0:
                self._open.wait()


parts = [shared({}, f"part {number}") for number in range(3)]
latch = Latch(len(parts))


def work(part):
    part["value"] = 7
    latch.count_down()


for part in parts:
    threading.Thread(target=work, args=(part,)).start()
latch.wait()
print(sum(part["value"] for part in parts))
