"""Whoever submits a job by a queue polls the job's status without waiting for it.

due: race
thing: job
"""

import queue
import threading
import time

from itc_trace import shared


class Job:
    def __init__(self, number):
        self.number = number
        self.status = "new"


jobs = queue.SimpleQueue()


def work():
    while True:
        job = jobs.get()
        if job is None:
            return
        job.status = "done"  # race: write


worker = threading.Thread(target=work)
worker.start()
job = shared(Job(1), "job")
jobs.put(job)
while job.status != "done":  # race: read
    time.sleep(0.002)
jobs.put(None)
worker.join()
print(job.status)
