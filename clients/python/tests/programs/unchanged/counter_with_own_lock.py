"""A counter has its own lock in an attribute.

due: none
"""

import threading


class Counter:
    def __init__(self):
        self.value = 0
        self.lock = threading.Lock()

    def add(self, amount):
        with self.lock:
            self.value += amount

    def read(self):
        with self.lock:
            return self.value


counter = Counter()


def work():
    for amount in range(3):
        counter.add(amount)
        counter.read()


threads = [threading.Thread(target=work) for _ in range(3)]
for thread in threads:
    thread.start()
for thread in threads:
    thread.join()
print(counter.read())
