"""Threads add to the cells of an array.

due: race
thing: counts
"""

import threading
from array import array

counts = array("l", [0, 0])


def work():
    counts[0] += 1  # race: read, write


threads = [threading.Thread(target=work) for _ in range(2)]
for thread in threads:
    thread.start()
for thread in threads:
    thread.join()
print(counts[0] > 0, counts[-1])
