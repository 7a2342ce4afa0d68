"""A property's setter keeps the highest value so far, by a read and a write.

due: race
thing: thermostat
"""

import threading

from itc_trace import shared


class Thermostat:
    def __init__(self):
        self._highest = 0

    @property
    def highest(self):
        return self._highest

    @highest.setter
    def highest(self, value):
        if value > self._highest:  # race: read
            self._highest = value  # race: write


def measure(thermostat, value):
    thermostat.highest = value


thermostat = shared(Thermostat(), "thermostat")
threads = [threading.Thread(target=measure, args=(thermostat, value)) for value in (20, 25)]
for thread in threads:
    thread.start()
for thread in threads:
    thread.join()
print(thermostat.highest > 0)
