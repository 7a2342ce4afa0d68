"""Callbacks of futures run in the pool's threads and count without a lock.

due: race
thing: Progress.done
"""

import threading
from concurrent.futures import ThreadPoolExecutor


class Progress:
    def __init__(self):
        self.done = 0

    def finished(self, future):
        self.done += 1  # race: read, write


progress = Progress()
together = threading.Barrier(3)


def fetch(number):
    together.wait()
    return number


with ThreadPoolExecutor(2) as pool:
    for number in range(2):
        pool.submit(fetch, number).add_done_callback(progress.finished)
    together.wait()
print(progress.done <= 2)
