"""Threads are started in a `with` of an `ExitStack`, which joins them at its end.

due: none
"""

import contextlib
import threading


class Part:
    def __init__(self, numbers):
        self.numbers = numbers
        self.sum = 0

    def add(self):
        for number in self.numbers:
            self.sum += number


@contextlib.contextmanager
def running(function):
    thread = threading.Thread(target=function)
    thread.start()
    try:
        yield thread
    finally:
        thread.join()


parts = [Part(range(begin, begin + 5)) for begin in (0, 5, 10)]
with contextlib.ExitStack() as stack:
    for part in parts[:2]:
        stack.enter_context(running(part.add))
    thread = threading.Thread(target=parts[2].add)
    stack.callback(thread.join)
    thread.start()
print(sum(part.sum for part in parts))
