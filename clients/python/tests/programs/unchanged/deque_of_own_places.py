"""Each thread has a place of its own in a deque.

due: none
"""

import threading
from collections import deque

totals = deque([0, 0, 0])


def add(place):
    for number in range(3):
        totals[place] += number


threads = [threading.Thread(target=add, args=(place,)) for place in range(3)]
for thread in threads:
    thread.start()
for thread in threads:
    thread.join()
print(list(totals))
