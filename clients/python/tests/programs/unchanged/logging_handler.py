"""A handler of `logging` counts its records: `logging` calls it under the handler's own lock.

due: none
"""

import logging
import threading


class Counting(logging.Handler):
    def __init__(self):
        super().__init__()
        self.records = 0
        self.last = None

    def emit(self, record):
        self.records += 1
        self.last = record.getMessage()


counting = Counting()
logger = logging.getLogger("shop")
logger.propagate = False
logger.addHandler(counting)


def sell(name):
    logger.warning("%s sells", name)


threads = [threading.Thread(target=sell, args=(name,)) for name in ("ann", "bea", "cy")]
for thread in threads:
    thread.start()
for thread in threads:
    thread.join()
print(counting.records, counting.last is not None)
