"""An exit stack appends to a log before it releases the lock.

due: none
"""

import threading
from contextlib import ExitStack

log, lock = [], threading.Lock()

def run(*works):
    threads = [threading.Thread(target=work) for work in works]
    for thread in threads:
        thread.start()
    for thread in threads:
        thread.join()


def work():
    with ExitStack() as stack:
        stack.enter_context(lock)
        stack.callback(log.append, 1)


def look():
    with lock:
        print(len(log) < 3)


run(work, look)
