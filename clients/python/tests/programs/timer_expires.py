"""A timer sets a flag, and the main thread polls it without any order.

due: race
thing: lease
"""

import threading
import time

from itc_trace import shared


class Lease:
    expired = False


def expire(lease):
    lease.expired = True  # race: write


lease = shared(Lease(), "lease")
timer = threading.Timer(0.05, expire, args=(lease,))
timer.start()
while not lease.expired:  # race: read
    time.sleep(0.01)
timer.join()
print("expired")
