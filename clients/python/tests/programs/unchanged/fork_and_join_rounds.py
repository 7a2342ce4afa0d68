"""The main thread starts threads in rounds, and joins them before the next round.

due: none
"""

import threading


class Grid:
    def __init__(self, size):
        self.cells = list(range(size))

    def smooth(self, source, index):
        self.cells[index] = source[index - 1] + source[index]


grid = Grid(3)
for _ in range(2):
    before = list(grid.cells)
    threads = [threading.Thread(target=grid.smooth, args=(before, index)) for index in range(3)]
    for thread in threads:
        thread.start()
    for thread in threads:
        thread.join()
print(grid.cells)
