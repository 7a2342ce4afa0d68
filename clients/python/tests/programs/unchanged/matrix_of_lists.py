"""Two threads raise the same element of a list of lists.

due: race
thing: grid
"""

import threading

grid = [[0, 0], [0, 0]]


def raise_by(row, column, amount):
    grid[row][column] += amount  # race: read, write


threads = [threading.Thread(target=raise_by, args=(1, 0, amount)) for amount in (2, 3)]
for thread in threads:
    thread.start()
for thread in threads:
    thread.join()
print(grid[1][0] in (2, 3, 5))
