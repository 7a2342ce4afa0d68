"""A property keeps its value among the fields of the object, by its own name, and looks there under a lock.

Whoever asks for it calls the property: no field of the object stands before one that may be set.

due: none
"""

import threading


class LockedProperty:
    def __init__(self, function):
        self.function, self.name = function, function.__name__
        self.lock = threading.RLock()

    def __get__(self, one, kind=None):
        with self.lock:
            fields = one.__dict__
            if self.name not in fields:
                fields[self.name] = self.function(one)
            return fields[self.name]

    def __set__(self, one, value):
        with self.lock:
            one.__dict__[self.name] = value


class Shop:
    @LockedProperty
    def names(self):
        return ("pear", "plum")


shop, found = Shop(), []
threads = [threading.Thread(target=lambda: found.append(shop.names)) for _ in range(3)]
for thread in threads:
    thread.start()
for thread in threads:
    thread.join()
print(found)
