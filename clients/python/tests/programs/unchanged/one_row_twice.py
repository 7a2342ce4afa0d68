"""The rows of a grid are one list, since the grid was made by `*`.

due: race
thing: grid
"""

import threading

grid = [[0] * 3] * 2


def fill(row):
    grid[row][0] += 1  # race: read, write


threads = [threading.Thread(target=fill, args=(row,)) for row in (0, 1)]
for thread in threads:
    thread.start()
for thread in threads:
    thread.join()
print(grid[0][0] > 0)
