"""Two dataclasses are compared while another thread changes a field of one of them.

due: race
thing: Point.x
"""

import threading
from dataclasses import dataclass


@dataclass(order=True)
class Point:
    x: int
    y: int


here, there = Point(1, 2), Point(3, 4)


def move():
    here.x = 3  # race: write


def compare():
    return here < there or here == there  # race: read


threads = [threading.Thread(target=move), threading.Thread(target=compare)]
for thread in threads:
    thread.start()
for thread in threads:
    thread.join()
print(here)
