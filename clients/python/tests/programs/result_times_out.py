"""The caller does not get the result of a job in time, and looks at its progress.

due: race
thing: search
"""

from concurrent.futures import ThreadPoolExecutor, TimeoutError

import _baton
from itc_trace import shared

search = shared({"found": 0}, "search")


def find():
    _baton.wait()
    search["found"] += 1  # race: write


with ThreadPoolExecutor(1) as pool:
    finding = pool.submit(find)
    try:
        finding.result(timeout=0.01)
    except TimeoutError:
        print(search["found"] in (0, 1))  # race: read
    _baton.hand_on()
