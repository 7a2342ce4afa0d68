"""A shipper takes the lock to count its turns, and reads the lines behind it, which stay where they are.

due: possible
thing: lines
"""

import threading
import time


class Shipper:
    def __init__(self):
        self.lines = []
        self.turns = 0
        self.lock = threading.Lock()

    def produce(self):
        with self.lock:
            self.lines.append("line")  # race: write

    def ship(self):
        with self.lock:
            self.turns += 1
        return "\n".join(self.lines)  # race: read


shipper = Shipper()
producing = threading.Thread(target=shipper.produce)
shipping = threading.Thread(target=lambda: (time.sleep(0.2), shipper.ship()))
for thread in (producing, shipping):
    thread.start()
for thread in (producing, shipping):
    thread.join()
