"""Two threads take what a map computes.

due: race
thing: squares
"""

import threading

squares = map(lambda number: number * number, [1, 2, 3, 4])
sums = []


def add():
    sums.append(next(squares) + next(squares))  # race: write


threads = [threading.Thread(target=add) for _ in range(2)]
for thread in threads:
    thread.start()
for thread in threads:
    thread.join()
print(sum(sums))
