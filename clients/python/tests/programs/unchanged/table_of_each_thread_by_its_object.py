"""Jobs of a pool count by the object of the thread that runs them.

due: none
"""

import threading
from concurrent.futures import ThreadPoolExecutor

counts = {}


def work(number):
    me = threading.current_thread()
    if me not in counts:
        counts[me] = 0
    counts[me] += number


with ThreadPoolExecutor(2) as pool:
    for job in [pool.submit(work, number) for number in range(12)]:
        job.result()
print(sum(counts.values()))
