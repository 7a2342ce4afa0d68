"""A counter of visits is raised by several threads, each by a read and a write.

due: race
thing: visits
"""

import threading

from itc_trace import shared


class Visits:
    def __init__(self):
        self.count = 0

    def add(self):
        self.count += 1  # race: read, write


visits = shared(Visits(), "visits")
threads = [threading.Thread(target=visits.add) for _ in range(3)]
for thread in threads:
    thread.start()
for thread in threads:
    thread.join()
print(visits.count <= 3)
