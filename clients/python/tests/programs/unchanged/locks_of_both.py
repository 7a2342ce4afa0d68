"""A swap holds the locks of both boxes, which it takes in the order of their numbers.

due: none
"""

import threading
from contextlib import ExitStack


class Box:
    def __init__(self, number, content):
        self.number = number
        self.content = content
        self.lock = threading.Lock()


def swap(one, other):
    with ExitStack() as stack:
        for box in sorted([one, other], key=lambda box: box.number):
            stack.enter_context(box.lock)
        one.content, other.content = other.content, one.content


red, blue = Box(1, "apple"), Box(2, "pear")
threads = [threading.Thread(target=swap, args=boxes) for boxes in ((red, blue), (blue, red), (red, blue))]
for thread in threads:
    thread.start()
for thread in threads:
    thread.join()
print(red.content, blue.content)
