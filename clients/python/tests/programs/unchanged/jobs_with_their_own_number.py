"""Each job of a comprehension is given its own number, and what they share is bound before they start.

due: none
"""

import time
from concurrent.futures import ThreadPoolExecutor


def squares():
    factor = 2

    def square(number):
        time.sleep(0.01)
        return factor * number * number

    with ThreadPoolExecutor(2) as pool:
        jobs = [pool.submit(lambda number=number: square(number)) for number in range(3)]
        total = sum(job.result() for job in jobs)
    return total


print(squares())
