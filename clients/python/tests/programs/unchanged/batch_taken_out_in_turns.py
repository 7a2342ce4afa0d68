"""Two workers fill a batch under a lock, and each takes it out when it is full, to work on it alone.

due: none
"""

import threading

lock = threading.Lock()
batch, sums = [], []


def work(first):
    global batch
    for number in range(first, first + 4):
        full = None
        with lock:
            batch.append(number)
            if len(batch) > 2:
                full, batch = batch, []
        if full is not None:
            full.sort()
            with lock:
                sums.append(sum(full))


threads = [threading.Thread(target=work, args=(first,)) for first in (0, 10)]
for thread in threads:
    thread.start()
for thread in threads:
    thread.join()
print(sum(sums) + sum(batch))
