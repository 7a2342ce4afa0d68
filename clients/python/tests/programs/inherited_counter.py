"""A subclass counts by the method of its base, which has no lock.

due: race
thing: metric
"""

import threading

from itc_trace import shared


class Metric:
    def __init__(self):
        self.value = 0

    def record(self, amount=1):
        self.value += amount  # race: read, write


class Weighted(Metric):
    weight = 3

    def record(self, amount=1):
        super().record(amount * self.weight)  # also: read


metric = shared(Weighted(), "metric")
threads = [threading.Thread(target=metric.record) for _ in range(2)]
for thread in threads:
    thread.start()
for thread in threads:
    thread.join()
print(metric.value in (3, 6))
