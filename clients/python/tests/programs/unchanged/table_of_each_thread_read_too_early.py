"""Jobs of a pool count by the identity of their thread, and another job sums up meanwhile.

due: race
thing: counts
"""

import threading
from concurrent.futures import ThreadPoolExecutor

counts = {}


def work(number):
    me = threading.get_ident()
    counts[me] = counts.get(me, 0) + 1  # also: read, write


def total():
    seen = 0
    for identity in list(counts):  # race: read
        seen += counts[identity]  # also: read
    return seen


def begin(number):
    me = threading.get_ident()
    counts[me] = number  # race: write


with ThreadPoolExecutor(2) as pool:
    jobs = [pool.submit(begin, number) for number in range(4)]
    jobs.append(pool.submit(total))
    jobs += [pool.submit(work, number) for number in range(4)]
    for job in jobs:
        job.result()
