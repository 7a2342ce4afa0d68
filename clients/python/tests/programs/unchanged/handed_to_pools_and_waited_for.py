"""Pools run methods of lists and of a dict, and their results are waited for.

due: none
"""

from concurrent.futures import ThreadPoolExecutor
from multiprocessing.pool import ThreadPool

left, right, rates = [], [], {"usd": 1, "eur": 2}
with ThreadPool(2) as pool:
    pool.map(right.append, [4, 5])
    print(sum(right))
    print(pool.map(rates.get, ["usd", "eur"]))
    pool.apply(rates.clear)
    print(len(rates))
with ThreadPoolExecutor(2) as pool:
    pool.submit(left.append, 3)
print(sum(left))
