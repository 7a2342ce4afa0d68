"""Workers meet at a barrier, and read their neighbour's cell in the phase in which it is written.

due: race
thing: cells
"""

import threading

cells = [1, 2, 3]
phase = threading.Barrier(3)


def smooth(number):
    for _ in range(2):
        phase.wait()
        neighbour = cells[(number + 1) % 3]  # race: read
        cells[number] = neighbour + 1  # race: write


threads = [threading.Thread(target=smooth, args=(number,)) for number in range(3)]
for thread in threads:
    thread.start()
for thread in threads:
    thread.join()
print(len(cells))
