"""A worker skips its turn if it does not get the lock at once.

due: none
thing: cleanup
"""

import threading

from itc_trace import shared

cleanup = shared({"runs": 0}, "cleanup")
lock = threading.Lock()


def clean():
    for _ in range(5):
        if lock.acquire(blocking=False):
            try:
                cleanup["runs"] += 1
            finally:
                lock.release()


threads = [threading.Thread(target=clean) for _ in range(2)]
for thread in threads:
    thread.start()
for thread in threads:
    thread.join()
print(cleanup["runs"] > 0)
