"""An object keeps its lock in an attribute, and every method takes it.

due: none
thing: stack
"""

import threading

from itc_trace import shared


class Stack:
    def __init__(self):
        self.lock = threading.RLock()
        self.top = 0
        self.items = {}

    def push(self, item):
        with self.lock:
            self.items[self.top] = item
            self.top += 1

    def pop(self):
        with self.lock:
            if self.top == 0:
                return None
            self.top -= 1
            return self.items.pop(self.top)


stack = shared(Stack(), "stack")


def work(number):
    stack.push(number)
    stack.pop()


threads = [threading.Thread(target=work, args=(number,)) for number in range(3)]
for thread in threads:
    thread.start()
for thread in threads:
    thread.join()
print(stack.top)
