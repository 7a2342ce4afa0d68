"""Two pools of one thread each keep their own jobs in order, and not those of the other.

due: race
thing: journal
"""

from concurrent.futures import ThreadPoolExecutor

from itc_trace import shared

journal = shared({"entries": 0}, "journal")


def enter():
    journal["entries"] += 1  # race: read, write


with ThreadPoolExecutor(1) as first, ThreadPoolExecutor(1) as second:
    for pool in (first, second):
        pool.submit(enter)
print(journal["entries"] in (1, 2))
