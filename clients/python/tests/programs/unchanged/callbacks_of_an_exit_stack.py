"""An exit stack appends to a log, whose length another thread asks for.

due: race
thing: log
"""

import threading
from contextlib import ExitStack

log = []

def run(*works):
    threads = [threading.Thread(target=work) for work in works]
    for thread in threads:
        thread.start()
    for thread in threads:
        thread.join()


def work():
    with ExitStack() as stack:
        stack.callback(log.append, 1)  # race: write


def look():
    print(len(log) < 3)  # race: read


run(work, look)
