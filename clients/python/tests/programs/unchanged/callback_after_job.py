"""A callback of a future reads what the job has written.

due: none
"""

from concurrent.futures import ThreadPoolExecutor


class Job:
    def __init__(self, number):
        self.number = number
        self.result = None
        self.told = False

    def run(self):
        self.result = self.number ** 2

    def tell(self, future):
        self.told = self.result is not None


jobs = [Job(number) for number in range(3)]
with ThreadPoolExecutor(2) as pool:
    for job in jobs:
        pool.submit(job.run).add_done_callback(job.tell)
print([job.told for job in jobs])
