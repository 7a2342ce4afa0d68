"""A metaclass makes the only instance of a class at its first call, without a lock.

due: race
thing: Single.instances or instances
"""

import threading


class Single(type):
    instances = {}

    def __call__(cls, *words):
        if cls not in cls.instances:  # race: read
            cls.instances[cls] = super().__call__(*words)  # race: write
        return cls.instances[cls]  # also: read


class Settings(metaclass=Single):
    def __init__(self):
        self.debug = False


threads = [threading.Thread(target=Settings) for _ in range(2)]
for thread in threads:
    thread.start()
for thread in threads:
    thread.join()
print(Settings() is Settings())
