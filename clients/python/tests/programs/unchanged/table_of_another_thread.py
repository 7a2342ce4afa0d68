"""Jobs of a pool add to the element of one thread, whichever of them runs them.

due: race
thing: counts
"""

import threading
from concurrent.futures import ThreadPoolExecutor

counts = {threading.get_ident(): 0}
main = threading.get_ident()


def work(number):
    counts[main] += number  # race: read, write


with ThreadPoolExecutor(2) as pool:
    for job in [pool.submit(work, number) for number in range(6)]:
        job.result()
print(counts[main])
