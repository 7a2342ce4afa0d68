"""Workers take jobs until a sentinel comes, and put their results into another queue.

due: none
"""

import queue
import threading

jobs, results = queue.Queue(), queue.Queue()


def work():
    while (job := jobs.get()) is not None:
        job["square"] = job["number"] ** 2
        results.put(job)


workers = [threading.Thread(target=work) for _ in range(3)]
for worker in workers:
    worker.start()
for number in range(6):
    jobs.put({"number": number})
for worker in workers:
    jobs.put(None)
squares = sorted(results.get()["square"] for _ in range(6))
for worker in workers:
    worker.join()
print(squares)
