"""The columns of a table are summed, while another thread sets a cell of it.

due: race
thing: rows
"""

import threading

rows = [[1, 2, 3], [4, 5, 6]]
sums = []


def change():
    rows[1][2] = 7  # race: write


def add_up():
    sums.extend(map(sum, zip(*rows)))  # race: read


threads = [threading.Thread(target=change), threading.Thread(target=add_up)]
for thread in threads:
    thread.start()
for thread in threads:
    thread.join()
print(len(sums))
