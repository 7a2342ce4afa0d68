"""A class keeps its only instance in a class attribute and makes it at the first call.

due: race
thing: Settings._instance
"""

import threading


class Settings:
    _instance = None

    def __init__(self):
        self.debug = False

    @classmethod
    def get(cls):
        if cls._instance is None:  # race: read
            cls._instance = cls()  # race: write
        return cls._instance  # also: read


threads = [threading.Thread(target=Settings.get) for _ in range(2)]
for thread in threads:
    thread.start()
for thread in threads:
    thread.join()
print(Settings.get() is not None)
