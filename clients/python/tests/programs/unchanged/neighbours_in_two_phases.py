"""Workers read in one phase and write in the next one.

due: none
"""

import threading

cells = [1, 2, 3]
phase = threading.Barrier(3)


def smooth(number):
    for _ in range(2):
        neighbour = cells[(number + 1) % 3]
        phase.wait()
        cells[number] = neighbour + 1
        phase.wait()


threads = [threading.Thread(target=smooth, args=(number,)) for number in range(3)]
for thread in threads:
    thread.start()
for thread in threads:
    thread.join()
print(cells)
