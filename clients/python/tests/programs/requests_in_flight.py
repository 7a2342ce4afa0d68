"""A context manager counts the requests in flight, up and down, without a lock.

due: race
thing: gauge
"""

import threading

from itc_trace import shared


class Gauge:
    def __init__(self):
        self.in_flight = 0

    def __enter__(self):
        self.in_flight += 1  # race: read, write
        return self

    def __exit__(self, *error):
        self.in_flight -= 1  # also: read, write


def request(gauge):
    with gauge:
        pass


gauge = shared(Gauge(), "gauge")
threads = [threading.Thread(target=request, args=(gauge,)) for _ in range(2)]
for thread in threads:
    thread.start()
for thread in threads:
    thread.join()
print("done")
