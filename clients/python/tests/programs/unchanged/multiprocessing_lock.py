"""A lock of `multiprocessing` is held by threads of one process.

due: none
"""

import multiprocessing
import threading


class Tally:
    def __init__(self):
        self.lock = multiprocessing.Lock()
        self.votes = 0

    def vote(self):
        with self.lock:
            self.votes += 1


tally = Tally()
threads = [threading.Thread(target=tally.vote) for _ in range(3)]
for thread in threads:
    thread.start()
for thread in threads:
    thread.join()
print(tally.votes)
