"""A thread starts itself in its constructor, and its interval is set behind that.

due: race
thing: Poller.interval
"""

import threading


class Poller(threading.Thread):
    def __init__(self, interval):
        super().__init__()
        self.interval = 1
        self.start()
        self.interval = interval  # race: write

    def run(self):
        self.pause = self.interval / 1000  # race: read


poller = Poller(5)
poller.join()
print(poller.pause > 0)
