"""A job of a pool gives parts of its work to another pool and adds them up.

due: none
thing: sum
"""

from concurrent.futures import ThreadPoolExecutor

from itc_trace import shared

inner = ThreadPoolExecutor(2)


def part(numbers):
    made = shared({"sum": 0}, f"sum of {numbers[0]}")
    for number in numbers:
        made["sum"] += number
    return made


def total(numbers):
    halves = [inner.submit(part, numbers[:2]), inner.submit(part, numbers[2:])]
    return sum(half.result()["sum"] for half in halves)


with ThreadPoolExecutor(2) as outer:
    print([job.result() for job in [outer.submit(total, [1, 2, 3]), outer.submit(total, [4, 5, 6])]])
inner.shutdown()
