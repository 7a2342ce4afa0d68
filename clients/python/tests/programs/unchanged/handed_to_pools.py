"""Pools run methods of lists, which are summed up before the jobs are waited for.

due: race
thing: left or right
"""

from concurrent.futures import ThreadPoolExecutor
from multiprocessing.pool import ThreadPool

left, right = [], []
with ThreadPoolExecutor(2) as pool, ThreadPool(2) as other:
    jobs = pool.map(left.append, [1, 2])  # race: write
    last = pool.submit(left.append, 3)  # race: write
    results = other.map_async(right.append, [4, 5])  # race: write
    result = other.apply_async(right.append, (6,))  # race: write
    print(sum(left) < 7)  # race: read
    print(sum(right) < 16)  # race: read
    results.wait()
    result.wait()
print(sum(left))
