"""A dataclass derives a field in `__post_init__`, and a method derives it anew without a lock.

due: race
thing: Box.area or Box.width
"""

import threading
from dataclasses import dataclass, field


@dataclass
class Box:
    width: int
    height: int
    area: int = field(init=False)

    def __post_init__(self):
        self.area = self.width * self.height

    def widen(self):
        self.width += 1  # race: read, write
        self.area = self.width * self.height  # also: read, write


box = Box(2, 3)
threads = [threading.Thread(target=box.widen) for _ in range(2)]
for thread in threads:
    thread.start()
for thread in threads:
    thread.join()
print(box.area)
