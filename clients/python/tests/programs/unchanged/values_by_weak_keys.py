"""A descriptor keeps a value for each object in a dictionary of weak keys, and each thread has an object of its own.

due: none
"""

import threading
import weakref


class Celsius:
    def __init__(self):
        self.values = weakref.WeakKeyDictionary()

    def __get__(self, one, kind):
        return self.values.get(one, 0)

    def __set__(self, one, value):
        self.values[one] = value


class Room:
    warmth = Celsius()


rooms = [Room(), Room()]


def heat(room):
    for _ in range(3):
        room.warmth += 1


threads = [threading.Thread(target=heat, args=(room,)) for room in rooms]
for thread in threads:
    thread.start()
for thread in threads:
    thread.join()
print([room.warmth for room in rooms])
