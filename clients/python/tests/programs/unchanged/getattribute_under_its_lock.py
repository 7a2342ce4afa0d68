"""A class looks up and sets all of its fields under a lock, by methods of its own.

due: none
"""

import threading

_lock = threading.RLock()


class Locked:
    def __init__(self):
        self.level = 0

    def __getattribute__(self, name):
        with _lock:
            return object.__getattribute__(self, name)

    def __setattr__(self, name, value):
        with _lock:
            object.__setattr__(self, name, value)


one = Locked()


def change(level):
    one.level = level
    return one.level


threads = [threading.Thread(target=change, args=(level,)) for level in (1, 2)]
for thread in threads:
    thread.start()
for thread in threads:
    thread.join()
print(one.level in (1, 2))
