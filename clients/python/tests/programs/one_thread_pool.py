"""The jobs of a pool with one thread come one after another.

due: none
thing: journal
"""

from concurrent.futures import ThreadPoolExecutor

from itc_trace import shared

journal = shared({"entries": 0}, "journal")


def enter():
    journal["entries"] += 1


with ThreadPoolExecutor(max_workers=1) as pool:
    for _ in range(3):
        pool.submit(enter)
print(journal["entries"])
