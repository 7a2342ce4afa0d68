"""An iterator is made into two, and each thread has one of them, but both draw from the one behind.

due: race
thing: for_ann or for_bob or given
"""

import itertools
import threading

for_ann, for_bob = itertools.tee(iter([1, 2, 3, 4]))
sums = {}


def add_for_ann():
    sums["ann"] = next(for_ann) + next(for_ann)  # race: write


def add_for_bob():
    sums["bob"] = next(for_bob)  # race: write


threads = [threading.Thread(target=add_for_ann), threading.Thread(target=add_for_bob)]
for thread in threads:
    thread.start()
for thread in threads:
    thread.join()
print(sums["ann"] + sums["bob"])
