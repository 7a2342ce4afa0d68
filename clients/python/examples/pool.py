"""The jobs of a pool fill a list, and the caller looks at it before it has waited for them.

Usage: pool.py [fixed]
"""

import sys
import threading
from concurrent.futures import ThreadPoolExecutor

import itc_trace

squares: list[int] = itc_trace.shared([], "squares")
lock = threading.Lock()


def square(number: int) -> None:
    with lock:
        squares.append(number * number)


with ThreadPoolExecutor(3) as pool:
    jobs = [pool.submit(square, number) for number in range(3)]
    if "fixed" in sys.argv:
        for job in jobs:
            job.result()
    print("squares:", len(squares) >= 0)
