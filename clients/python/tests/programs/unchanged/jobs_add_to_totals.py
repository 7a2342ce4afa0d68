"""Jobs add to one dict, and the caller only waits for them as they are completed.

due: race
thing: totals
"""

from collections import defaultdict
from concurrent.futures import ThreadPoolExecutor, as_completed

totals = defaultdict(int)


def count(text):
    for word in text.split():
        totals[word] += 1  # race: read, write


with ThreadPoolExecutor(2) as pool:
    for job in as_completed([pool.submit(count, "to be"), pool.submit(count, "or be")]):
        job.result()
print(totals["to"])
