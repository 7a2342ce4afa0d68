"""Jobs of a pool count by the identity of the thread that runs them, and the main thread sums up behind them.

due: none
"""

import threading
from concurrent.futures import ThreadPoolExecutor

counts, last = {}, {}


def work(number):
    me = threading.get_ident()
    if me not in counts:
        counts[me] = 0
    counts[me] += 1
    last[threading.current_thread().ident] = number


with ThreadPoolExecutor(2) as pool:
    for job in [pool.submit(work, number) for number in range(12)]:
        job.result()
print(sum(counts.values()), len(last) > 0)
