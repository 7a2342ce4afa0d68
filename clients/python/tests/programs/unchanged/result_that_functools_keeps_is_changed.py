"""A function fills an object, and `functools` keeps it. Whoever gets it changes it.

due: race
thing: Settings.total
"""

import functools
import threading


class Settings:
    def __init__(self):
        self.total = 0


@functools.lru_cache
def settings():
    made = Settings()
    made.total = 1
    return made


def work():
    settings().total += 1  # race: read, write


threads = [threading.Thread(target=work) for _ in range(3)]
for thread in threads:
    thread.start()
for thread in threads:
    thread.join()
