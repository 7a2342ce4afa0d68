"""A consumer under a condition takes batches of an iterator that only it has, from a list that is filled before.

due: none
"""

import itertools
import threading

rows = [("a", 1), ("a", 2), ("b", 3)]
done = threading.Event()
sums = {}


def add_up():
    for key, group in itertools.groupby(rows, key=lambda row: row[0]):
        sums[key] = sum(number for _, number in group)
    steps = itertools.chain(rows, rows[:1])
    while (batch := list(itertools.islice(steps, 2))):
        sums[len(batch), len(sums)] = batch
    done.set()


threading.Thread(target=add_up).start()
done.wait()
print(len(sums))
