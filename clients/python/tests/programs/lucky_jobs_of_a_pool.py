"""Two jobs of a pool log under a lock: one after it has written the report, one before it reads it.

due: possible
thing: report
"""

import threading
from concurrent.futures import ThreadPoolExecutor

import _baton
from itc_trace import shared

report = shared({"rows": 0}, "report")
audit, audit_lock = [], threading.Lock()


def note(text):
    audit_lock.acquire()
    try:
        audit.append(text)
    finally:
        audit_lock.release()


def build():
    report["rows"] = 12  # race: write
    note("built")
    _baton.hand_on()


def send():
    _baton.wait()
    note("sending")
    return report["rows"]  # race: read


with ThreadPoolExecutor(2) as pool:
    jobs = [pool.submit(build), pool.submit(send)]
print([job.result() for job in jobs])
