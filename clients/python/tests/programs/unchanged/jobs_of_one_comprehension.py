"""Jobs that a comprehension submits share its variable, and see whatever it has come to.

due: race
thing: number
"""

import time
from concurrent.futures import ThreadPoolExecutor


def square(number):
    return number * number


def squares():
    with ThreadPoolExecutor(2) as pool:
        jobs = [pool.submit(lambda: time.sleep(0.01) or square(number)) for number in range(3)]  # race: read, write
        return [job.result() for job in jobs]


print(squares())
