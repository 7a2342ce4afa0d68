"""The action of a barrier adds up what all have written, and then all read the sum.

due: none
"""

import threading

WORKERS = 3
parts = [0] * WORKERS
sums = {"total": 0}
seen = []


def add():
    sums["total"] = sum(parts)


barrier = threading.Barrier(WORKERS, action=add)


def work(number):
    for step in (1, 2):
        parts[number] += step
        barrier.wait()
        seen.append(sums["total"])
        barrier.wait()


threads = [threading.Thread(target=work, args=(number,)) for number in range(WORKERS)]
for thread in threads:
    thread.start()
for thread in threads:
    thread.join()
print(sorted(seen))
