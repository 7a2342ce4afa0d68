"""Threads count numbers into the cells of a list.

due: race
thing: cells[0]
"""

import threading

cells = [0] * 4


def count(numbers):
    for number in numbers:
        cells[number % 4] += 1  # race: read, write


threads = [threading.Thread(target=count, args=([0, first],)) for first in (1, 2)]
for thread in threads:
    thread.start()
for thread in threads:
    thread.join()
print(sum(cells) <= 4)
