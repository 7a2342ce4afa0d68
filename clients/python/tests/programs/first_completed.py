"""The caller waits for the first job alone and then reads what the other writes.

due: race
thing: report
"""

from concurrent.futures import FIRST_COMPLETED, ThreadPoolExecutor, wait

import _baton
from itc_trace import shared

report = shared({"slow": None}, "report")


def fast():
    return "fast"


def slow():
    _baton.wait()
    report["slow"] = "done"  # race: write


with ThreadPoolExecutor(2) as pool:
    done, pending = wait([pool.submit(fast), pool.submit(slow)], return_when=FIRST_COMPLETED)
    print(len(done) > 0, report["slow"] in (None, "done"))  # race: read
    _baton.hand_on()
