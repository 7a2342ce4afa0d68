"""A generator makes items in the thread that runs it, and a queue hands them to another.

due: none
thing: row
"""

import queue
import threading

from itc_trace import shared


def rows(count):
    for number in range(count):
        row = shared({}, f"row {number}")
        row["number"] = number
        yield row


def feed(source, target):
    for row in source:
        row["fed"] = True
        target.put(row)
    target.put(None)


table = queue.Queue(2)
feeder = threading.Thread(target=feed, args=(rows(4), table))
feeder.start()
print(sum(row["number"] for row in iter(table.get, None) if row["fed"]))
feeder.join()
