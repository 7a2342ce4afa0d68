"""A dataclass makes its own lock by a default factory.

due: none
thing: inventory
"""

import threading
from dataclasses import dataclass, field

from itc_trace import shared


@dataclass
class Inventory:
    count: int = 0
    lock: threading.Lock = field(default_factory=threading.Lock, repr=False, compare=False)

    def add(self, amount):
        with self.lock:
            self.count += amount


inventory = shared(Inventory(), "inventory")
threads = [threading.Thread(target=inventory.add, args=(amount,)) for amount in (1, 2, 3)]
for thread in threads:
    thread.start()
for thread in threads:
    thread.join()
print(inventory.count)
