"""Workers take jobs until a sentinel comes, and count them in one dict.

due: race
thing: statistics
"""

import queue
import threading

jobs = queue.Queue()
statistics = {"done": 0}


def work():
    while True:
        job = jobs.get()
        if job is None:
            return
        statistics["done"] += job  # race: read, write


workers = [threading.Thread(target=work) for _ in range(2)]
for worker in workers:
    worker.start()
for worker in workers:
    jobs.put(1)
    jobs.put(None)
for worker in workers:
    worker.join()
print(statistics["done"] in (1, 2))
