"""A callback of the thread pool of `multiprocessing` reads what the job wrote.

due: none
thing: scan
"""

import threading
from multiprocessing.pool import ThreadPool

from itc_trace import shared

scan = shared({}, "scan")
called = threading.Event()


def run():
    scan["files"] = 3
    return "done"


def tell(result):
    scan["result"] = result
    called.set()


pool = ThreadPool(2)
pool.apply_async(run, callback=tell)
called.wait()
print(scan["files"], scan["result"])
pool.close()
pool.join()
