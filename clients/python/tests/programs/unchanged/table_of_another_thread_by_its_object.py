"""Jobs of a pool add to the element of the main thread, by its object, whichever thread runs them.

due: race
thing: counts
"""

import threading
from concurrent.futures import ThreadPoolExecutor

main = threading.current_thread()
counts = {main: 0}


def work(number):
    counts[main] += number  # race: read, write


with ThreadPoolExecutor(2) as pool:
    for job in [pool.submit(work, number) for number in range(6)]:
        job.result()
print(counts[main])
