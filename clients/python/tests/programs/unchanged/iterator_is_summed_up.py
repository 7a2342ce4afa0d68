"""One thread adds up what an iterator still has, while another one takes from it.

due: race
thing: meter.readings
"""

import threading


class Meter:
    def __init__(self):
        self.readings = filter(None, (0, 3, 4, 5, 0, 6))


meter = Meter()


def add_up():
    print(sum(meter.readings) <= 18)  # race: write


def take():
    first, second = next(meter.readings, 0), meter.readings.__next__  # race: write
    return first, second


threads = [threading.Thread(target=add_up), threading.Thread(target=take)]
for thread in threads:
    thread.start()
for thread in threads:
    thread.join()
