"""A descriptor keeps its values in the objects' dicts and clamps them.

due: race
thing: level or _level
"""

import threading


class Clamped:
    def __set_name__(self, owner, name):
        self.name = "_" + name

    def __get__(self, one, owner=None):
        return one.__dict__[self.name]  # race: read

    def __set__(self, one, value):
        one.__dict__[self.name] = min(max(value, 0), 10)  # race: write


class Tank:
    level = Clamped()

    def __init__(self):
        self.level = 5

    def pour(self, amount):
        self.level = self.level + amount  # also: read, write


tank = Tank()
threads = [threading.Thread(target=tank.pour, args=(amount,)) for amount in (2, 3)]
for thread in threads:
    thread.start()
for thread in threads:
    thread.join()
print(tank.level > 5)
