"""A class below `MutableMapping` keeps its items in a dict, and inherits all other methods.

due: race
thing: Table._items or _items
"""

import threading
from collections.abc import MutableMapping


class Table(MutableMapping):
    def __init__(self):
        self._items = {"a": 0}

    def __getitem__(self, key):
        return self._items[key]  # race: read

    def __setitem__(self, key, value):
        self._items[key] = value  # race: write

    def __delitem__(self, key):
        del self._items[key]

    def __iter__(self):
        return iter(self._items)

    def __len__(self):
        return len(self._items)


table = Table()


def add():
    table["a"] += 1


threads = [threading.Thread(target=add) for _ in range(2)]
for thread in threads:
    thread.start()
for thread in threads:
    thread.join()
print(table["a"] > 0)
