"""A producer makes items and publishes each under a lock: from then on the consumer alone uses it.

due: none
thing: parcel
"""

import threading
import time

from itc_trace import shared


class Shelf:
    def __init__(self):
        self.lock = threading.Lock()
        self.parcels = []

    def leave(self, parcel):
        with self.lock:
            self.parcels.append(parcel)

    def collect(self):
        with self.lock:
            return self.parcels.pop() if self.parcels else None


shelf = Shelf()


def produce():
    for number in range(3):
        parcel = shared({}, f"parcel {number}")
        parcel["number"] = number
        shelf.leave(parcel)


def consume():
    taken = 0
    while taken < 3:
        parcel = shelf.collect()
        if parcel is None:
            time.sleep(0.001)
            continue
        parcel["opened"] = True
        taken += 1


threads = [threading.Thread(target=consume), threading.Thread(target=produce)]
for thread in threads:
    thread.start()
for thread in threads:
    thread.join()
print("all opened")
