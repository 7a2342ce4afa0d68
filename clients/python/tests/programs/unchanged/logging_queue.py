"""Threads log by a queue handler, and a listener's thread counts the records.

due: none
"""

import logging
import logging.handlers
import queue
import threading


class Counting(logging.Handler):
    def __init__(self):
        super().__init__()
        self.records = 0

    def emit(self, record):
        self.records += 1


counting = Counting()
records = queue.Queue()
listener = logging.handlers.QueueListener(records, counting)
logger = logging.getLogger("shop")
logger.propagate = False
logger.setLevel(logging.INFO)
logger.addHandler(logging.handlers.QueueHandler(records))


def sell(name):
    logger.info("%s sells", name)


listener.start()
threads = [threading.Thread(target=sell, args=(name,)) for name in ("ann", "bea")]
for thread in threads:
    thread.start()
for thread in threads:
    thread.join()
listener.stop()
print(counting.records)
