"""The thread pool of `multiprocessing` works on a dict that the caller reads meanwhile.

due: race
thing: index
"""

import time
from multiprocessing.pool import ThreadPool

from itc_trace import shared

index = shared({"words": 0}, "index")


def count(text):
    time.sleep(0.05)
    index["words"] = len(text.split())  # race: write


with ThreadPool(2) as pool:
    counting = pool.apply_async(count, ("to be or not",))
    print(index["words"] in (0, 4))  # race: read
    counting.wait()
print(index["words"])
