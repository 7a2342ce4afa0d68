"""A list of the program gives its slices, its truth and its sums under its lock.

due: none
"""

import threading


class Track(list):
    lock = threading.RLock()

    def __getitem__(self, place):
        with self.lock:
            return super().__getitem__(place)

    def __setitem__(self, place, value):
        with self.lock:
            super().__setitem__(place, value)

    def __bool__(self):
        with self.lock:
            return super().__len__() > 0

    def __add__(self, other):
        with self.lock:
            return [*super().__iter__(), *other]

    def __reversed__(self):
        with self.lock:
            return iter(super().__getitem__(slice(None, None, -1)))


track, told = Track([1, 2, 3]), []


def work(number):
    track[0:1] = [number]
    told.append((track[:2], bool(track), "x" if track else "", track + [4], [*reversed(track)]))


threads = [threading.Thread(target=work, args=(number,)) for number in (7, 8)]
for thread in threads:
    thread.start()
for thread in threads:
    thread.join()
print(len(told))
