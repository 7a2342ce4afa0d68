"""A dataclass compares by a method of its own, which looks at its number alone, and its guest is changed under a lock.

due: none
"""

import threading
from dataclasses import dataclass


@dataclass
class Seat:
    number: int
    guest: str = ""

    def __eq__(self, other):
        return self.number == other.number

    def __lt__(self, other):
        return self.number < other.number


one, other, lock, found = Seat(1), Seat(2), threading.Lock(), []


def take():
    with lock:
        one.guest = "ann"


def look():
    found.append((one == other, one < other, sorted([other, one])[0] is one))


threads = [threading.Thread(target=take), threading.Thread(target=look)]
for thread in threads:
    thread.start()
for thread in threads:
    thread.join()
print(found, one.guest)
