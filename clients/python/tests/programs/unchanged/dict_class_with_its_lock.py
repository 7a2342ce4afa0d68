"""A subclass of dict has a lock and a count among its fields.

due: none
"""

import threading


class Counted(dict):
    def __init__(self):
        super().__init__()
        self.lock = threading.Lock()
        self.changes = 0

    def change(self, key, value):
        with self.lock:
            self[key] = value
            self.changes += 1


counted = Counted()


def work():
    counted.change("a", 1)


threads = [threading.Thread(target=work) for _ in range(2)]
for thread in threads:
    thread.start()
for thread in threads:
    thread.join()
print(counted.changes, counted)
