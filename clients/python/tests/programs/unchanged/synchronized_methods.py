"""A decorator locks each method by the lock of its object.

due: none
"""

import functools
import threading


def synchronized(method):
    @functools.wraps(method)
    def wrapper(self, *args, **kwargs):
        with self._lock:
            return method(self, *args, **kwargs)

    return wrapper


class Queue:
    def __init__(self):
        self._lock = threading.RLock()
        self._items = []

    @synchronized
    def push(self, item):
        self._items.append(item)
        return self.size()

    @synchronized
    def pop(self):
        return self._items.pop(0) if self._items else None

    @synchronized
    def size(self):
        return len(self._items)


queue = Queue()


def work(number):
    queue.push(number)
    queue.pop()


threads = [threading.Thread(target=work, args=(number,)) for number in range(3)]
for thread in threads:
    thread.start()
for thread in threads:
    thread.join()
print(queue.size())
