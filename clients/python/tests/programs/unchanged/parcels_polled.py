"""A consumer polls a shelf under its lock, and each parcel is its own from then on.

due: none
"""

import threading
import time


class Parcel:
    def __init__(self, number):
        self.number = number
        self.opened = False


class Shelf:
    def __init__(self):
        self._lock = threading.Lock()
        self._parcels = []

    def leave(self, parcel):
        with self._lock:
            self._parcels.append(parcel)

    def collect(self):
        with self._lock:
            return self._parcels.pop() if self._parcels else None


shelf = Shelf()


def produce():
    for number in range(3):
        parcel = Parcel(number)
        parcel.number += 1
        shelf.leave(parcel)


def consume():
    opened = 0
    while opened < 3:
        parcel = shelf.collect()
        if parcel is None:
            time.sleep(0.001)
        else:
            parcel.opened = True
            opened += parcel.number > 0


threads = [threading.Thread(target=consume), threading.Thread(target=produce)]
for thread in threads:
    thread.start()
for thread in threads:
    thread.join()
print("opened")
