"""Workers look at an event, and keep what they have done in fields of their own.

due: none
"""

import threading
import time


class Worker(threading.Thread):
    def __init__(self, stop):
        super().__init__()
        self.stop = stop
        self.rounds = 0

    def run(self):
        while not self.stop.is_set():
            self.rounds += 1
            time.sleep(0.002)


stop = threading.Event()
workers = [Worker(stop) for _ in range(2)]
for worker in workers:
    worker.start()
time.sleep(0.01)
stop.set()
for worker in workers:
    worker.join()
print(all(worker.rounds > 0 for worker in workers))
