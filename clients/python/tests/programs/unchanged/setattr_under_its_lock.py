"""A class sets its fields under a lock in `__setattr__`, and its readers take the lock, too.

due: none
"""

import threading


class Locked:
    def __init__(self):
        object.__setattr__(self, "lock", threading.RLock())
        self.level = 0

    def __setattr__(self, name, value):
        with self.lock:
            super().__setattr__(name, value)

    def told(self):
        with self.lock:
            return self.level


one = Locked()


def change(level):
    one.level = level
    return one.told()


threads = [threading.Thread(target=change, args=(level,)) for level in (1, 2)]
for thread in threads:
    thread.start()
for thread in threads:
    thread.join()
print(one.told() in (1, 2))
