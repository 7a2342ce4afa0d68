"""Threads look whether a deque has something, and take it then.

due: race
thing: jobs
"""

import collections
import threading

jobs = collections.deque(range(4))


def work():
    while len(jobs) > 0:  # race: read
        try:
            jobs.pop()  # race: write
        except IndexError:
            return


threads = [threading.Thread(target=work) for _ in range(2)]
for thread in threads:
    thread.start()
for thread in threads:
    thread.join()
print(len(jobs))
