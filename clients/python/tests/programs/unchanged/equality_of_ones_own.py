"""A dict subclass and a list subclass compare and show themselves by methods that take their lock.

due: none
"""

import threading


class Table(dict):
    lock = threading.RLock()

    def set(self, key, value):
        with self.lock:
            self[key] = value

    def __eq__(self, other):
        with self.lock:
            return dict(self.items()) == other

    def __repr__(self):
        with self.lock:
            return f"Table{len(self)}"

    __str__ = __repr__

    def __bool__(self):
        return True

    def __or__(self, other):
        with self.lock:
            return {**dict(self.items()), **other}


table, told = Table(a=1), []


def look():
    told.append((table == {}, f"{table}", str(table), bool(table), len(table | {"x": 1}), "%s" % table))


threads = [threading.Thread(target=look), threading.Thread(target=table.set, args=("b", 2))]
for thread in threads:
    thread.start()
for thread in threads:
    thread.join()
print(len(told))
