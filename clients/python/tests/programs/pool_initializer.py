"""Each thread of a pool reads what the caller set before, and the caller reads after the pool's end.

due: none
thing: setup
"""

import threading
from concurrent.futures import ThreadPoolExecutor

from itc_trace import shared

setup = shared({}, "setup")
lock = threading.Lock()


def prepare(name):
    with lock:
        setup[threading.current_thread().name] = name


def work(number):
    with lock:
        return setup[threading.current_thread().name] + str(number)


with ThreadPoolExecutor(2, initializer=prepare, initargs=("ready",)) as pool:
    jobs = [pool.submit(work, number) for number in range(4)]
print([job.result() for job in jobs], len(setup) > 0)
