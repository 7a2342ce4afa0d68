"""Threads append to and take from both ends of a deque, which is safe, and end when it is empty.

due: none
"""

import collections
import threading

jobs, done = collections.deque(range(6)), collections.deque()


def work():
    while True:
        try:
            job = jobs.popleft()
        except IndexError:
            return
        done.append(job * 2)


threads = [threading.Thread(target=work) for _ in range(2)]
for thread in threads:
    thread.start()
for thread in threads:
    thread.join()
print(sorted(done))
