"""Whoever asks first for a key computes it, the others wait for its future. The table is guarded, the values are shared to be read.

due: none
"""

import threading
from concurrent.futures import Future


class OneFlight:
    def __init__(self, load):
        self._load = load
        self._lock = threading.Lock()
        self._flights = {}
        self.loads = 0

    def get(self, key):
        with self._lock:
            flight = self._flights.get(key)
            is_mine = flight is None
            if is_mine:
                flight = self._flights[key] = Future()
                self.loads += 1
        if is_mine:
            try:
                flight.set_result(self._load(key))
            except KeyError as error:
                flight.set_exception(error)
        return flight.result()


def load(key):
    value = {"key": key}
    value["length"] = len(key)
    if not key:
        raise KeyError(key)
    return value


flights = OneFlight(load)
lengths = [[] for _ in range(4)]


def work(mine):
    for key in ("tea", "milk", ""):
        try:
            mine.append(flights.get(key)["length"])
        except KeyError:
            mine.append(0)


threads = [threading.Thread(target=work, args=(mine,)) for mine in lengths]
for thread in threads:
    thread.start()
for thread in threads:
    thread.join()
print(flights.loads, lengths[0])
