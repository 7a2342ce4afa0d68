"""A base class sets fields by `self.__dict__`, without a lock, for all that its classes below assign.

due: race
thing: Sum.total
"""

import threading


class Record:
    def __setattr__(self, name, value):
        self.__dict__[name] = value  # race: write


class Sum(Record):
    def __init__(self):
        self.total = 0


one = Sum()


def add():
    value = one.total  # race: read
    one.total = value + 1


threads = [threading.Thread(target=add) for _ in range(2)]
for thread in threads:
    thread.start()
for thread in threads:
    thread.join()
print(one.total > 0)
