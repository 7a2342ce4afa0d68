"""A callback reads what the pool's job wrote before it ended.

due: none
thing: answer
"""

from concurrent.futures import ThreadPoolExecutor

from itc_trace import shared

answer = shared({}, "answer")


def compute():
    answer["value"] = 6 * 7


def show(future):
    answer["seen"] = answer["value"] == 42


with ThreadPoolExecutor(2) as pool:
    pool.submit(compute).add_done_callback(show)
print(answer["seen"])
