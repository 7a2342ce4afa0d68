"""A pool is shut down without waiting for its jobs, and their outcome is read at once.

due: race
thing: backup
"""

import time
from concurrent.futures import ThreadPoolExecutor

from itc_trace import shared

backup = shared({"files": 0}, "backup")


def copy_files():
    time.sleep(0.05)
    backup["files"] = 7  # race: write


pool = ThreadPoolExecutor(2)
pool.submit(copy_files)
pool.shutdown(wait=False)
print(backup["files"] in (0, 7))  # race: read
