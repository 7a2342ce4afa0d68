"""The members of an enum count how often they were met.

due: race
thing: Light.met
"""

import enum
import threading


class Light(enum.Enum):
    RED = 1
    GREEN = 2

    def __init__(self, number):
        self.met = 0

    def meet(self):
        self.met += 1  # race: read, write


def drive():
    Light.RED.meet()
    return Light(2).name


threads = [threading.Thread(target=drive) for _ in range(2)]
for thread in threads:
    thread.start()
for thread in threads:
    thread.join()
print(Light.RED.met > 0)
