"""A callback of a future writes, and sets the event that the caller waits for.

due: none
"""

import threading
from concurrent.futures import ThreadPoolExecutor

report, written = {}, threading.Event()


def finished(job):
    report["rows"] = job.result()
    written.set()


with ThreadPoolExecutor(2) as pool:
    pool.submit(sum, [1, 2]).add_done_callback(finished)
    written.wait()
    report["rows"] += 1
print(report["rows"])
