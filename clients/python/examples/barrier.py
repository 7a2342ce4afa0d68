"""Workers fill a part of a table each, meet, and read all parts. Without the second meeting a fast one writes while others read.

Usage: barrier.py [fixed]
"""

import sys
import threading

import itc_trace

WORKERS, ROUNDS = 3, 2
parts = [itc_trace.shared({"value": 0}, f"part {number}") for number in range(WORKERS)]
barrier = threading.Barrier(WORKERS)


def work(number: int) -> None:
    for _ in range(ROUNDS):
        parts[number]["value"] = number
        barrier.wait()
        sum(part["value"] for part in parts)
        if "fixed" in sys.argv:
            barrier.wait()


threads = [threading.Thread(target=work, args=(number,)) for number in range(WORKERS)]
for thread in threads:
    thread.start()
for thread in threads:
    thread.join()
print("parts:", [part["value"] for part in parts])
