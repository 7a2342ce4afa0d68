"""The main thread joins the queue, and then reads what the workers did with the jobs.

due: none
"""

import queue
import threading


class Job:
    def __init__(self, number):
        self.number = number
        self.result = None


jobs = queue.Queue()


def work():
    while True:
        job = jobs.get()
        job.result = job.number * 2
        jobs.task_done()


for _ in range(2):
    threading.Thread(target=work, daemon=True).start()
made = [Job(number) for number in range(4)]
for job in made:
    jobs.put(job)
jobs.join()
print([job.result for job in made])
