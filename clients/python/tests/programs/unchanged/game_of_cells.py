"""Workers compute a row of cells in rounds, which a barrier keeps apart.

due: none
"""

import threading

WORKERS = 3
row = [1, 0, 1]
after = [0, 0, 0]
barrier = threading.Barrier(WORKERS)


def live(number):
    for _ in range(2):
        after[number] = (row[number - 1] + row[(number + 1) % WORKERS]) % 2
        barrier.wait()
        row[number] = after[number]
        barrier.wait()


threads = [threading.Thread(target=live, args=(number,)) for number in range(WORKERS)]
for thread in threads:
    thread.start()
for thread in threads:
    thread.join()
print(row)
