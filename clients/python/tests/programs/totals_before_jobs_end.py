"""The caller counts the totals of a pool's jobs before it has waited for them.

due: race
thing: totals
"""

from concurrent.futures import ThreadPoolExecutor

from itc_trace import shared

totals = shared({}, "totals")


def count(word):
    totals[word] = len(word)  # race: write


with ThreadPoolExecutor(2) as pool:
    jobs = [pool.submit(count, word) for word in ("one", "three")]
    print(len(totals) >= 0)  # race: read
print(len(totals))
