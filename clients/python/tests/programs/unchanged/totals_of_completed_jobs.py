"""The caller adds up what jobs return, as they are completed.

due: none
"""

from collections import Counter
from concurrent.futures import ThreadPoolExecutor, as_completed

totals = Counter()


def count(text):
    return Counter(text.split())


with ThreadPoolExecutor(3) as pool:
    for job in as_completed([pool.submit(count, text) for text in ("to be", "or not", "to be")]):
        totals.update(job.result())
print(totals["be"])
