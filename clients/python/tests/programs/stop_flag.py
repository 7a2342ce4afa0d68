"""A worker loops until a plain attribute says that it is to stop.

due: race
thing: worker
"""

import threading
import time

from itc_trace import shared


class Worker:
    def __init__(self):
        self.running = True

    def run(self):
        while self.running:  # race: read
            time.sleep(0.005)

    def stop(self):
        self.running = False  # race: write


worker = shared(Worker(), "worker")
thread = threading.Thread(target=worker.run)
thread.start()
time.sleep(0.02)
worker.stop()
thread.join()
print("stopped")
