"""A worker stops once its attribute is set, which the class has a default for.

due: race
thing: Ticker.stopped
"""

import threading
import time


class Ticker(threading.Thread):
    stopped = False

    def run(self):
        ticks = 0
        while not self.stopped:  # race: read
            ticks += 1
            time.sleep(0.005)

    def stop(self):
        self.stopped = True  # race: write


ticker = Ticker()
ticker.start()
time.sleep(0.02)
ticker.stop()
ticker.join()
print("stopped")
