"""A dataclass without comparison of its own is looked for in a list and compared, while another thread changes it under a lock.

due: none
"""

import threading
from dataclasses import dataclass


@dataclass(eq=False)
class Seat:
    number: int
    guest: str = ""


seats, lock, found = [Seat(1), Seat(2)], threading.Lock(), []
first = seats[0]


def take():
    with lock:
        first.guest = "ann"


def look():
    found.append(first == seats[1])
    found.append(seats[0] != first)


threads = [threading.Thread(target=take), threading.Thread(target=look)]
for thread in threads:
    thread.start()
for thread in threads:
    thread.join()
print(found, first.guest)
