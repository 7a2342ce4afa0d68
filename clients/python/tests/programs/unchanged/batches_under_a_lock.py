"""Workers take batches of one iterator by `islice` under a lock, and work on each without it.

due: none
"""

import itertools
import threading

lock = threading.Lock()
numbers = map(int, "12345678")
sums = []


def take():
    with lock:
        return list(itertools.islice(numbers, 3))


def work():
    while batch := take():
        total = sum(number for number in reversed(batch))
        with lock:
            sums.append(total)


threads = [threading.Thread(target=work) for _ in range(3)]
for thread in threads:
    thread.start()
for thread in threads:
    thread.join()
print(sum(sums))
