"""A subclass of list takes its lock in each method that threads use, by brackets, loops, `len` and `in`.

due: none
"""

import threading


class Rows(list):
    def __init__(self, *rows):
        super().__init__(rows)
        self.lock = threading.RLock()

    def append(self, row):
        with self.lock:
            super().append(row)

    def pop(self, place=-1):
        with self.lock:
            return super().pop(place)

    def __len__(self):
        with self.lock:
            return super().__len__()

    def __iter__(self):
        with self.lock:
            return iter(list(super().__iter__()))

    def __contains__(self, row):
        with self.lock:
            return super().__contains__(row)

    def __getitem__(self, place):
        with self.lock:
            return super().__getitem__(place)

    def __iadd__(self, rows):
        with self.lock:
            super().extend(rows)
        return self


rows, told = Rows(1, 2, 3), []


def work(number):
    mine = rows
    mine.append(number)
    mine += [number]
    told.append((len(rows) > 0, number in rows, rows[0] > 0, [row for row in rows] != [], rows.pop() > 0, bool(rows)))


threads = [threading.Thread(target=work, args=(number,)) for number in (4, 5)]
for thread in threads:
    thread.start()
for thread in threads:
    thread.join()
print(len(told))
