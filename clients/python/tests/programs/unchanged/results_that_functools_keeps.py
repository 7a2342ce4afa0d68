"""A function fills an object, and `functools` keeps it for whoever asks next.

due: none
"""

import functools
import threading
from functools import lru_cache as kept


class Settings:
    def __init__(self, name):
        self.name, self.rows = name, {}
        self.fill()

    def fill(self):
        self.rows["first"] = 1
        self.total = len(self.rows)


@functools.lru_cache
def plain(name):
    return Settings(name)


@kept(maxsize=4)
def sized(name):
    settings = Settings(name)
    settings.fill()
    return settings


@functools.cache
def together(name):
    first = Settings(name)
    first.fill()
    return [first, Settings(name)]


def work(number):
    for one in (plain("a"), sized("a"), *together("a")):
        found[number] += one.total + one.rows["first"]


found = [0] * 3
threads = [threading.Thread(target=work, args=(number,)) for number in range(3)]
for thread in threads:
    thread.start()
for thread in threads:
    thread.join()
print(found)
