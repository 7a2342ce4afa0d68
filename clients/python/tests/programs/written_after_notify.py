"""A producer notifies the consumer first and fills the box once it has left the condition.

due: race
thing: box
"""

import threading

from itc_trace import shared

box = shared({}, "box")
condition = threading.Condition()
is_full = False


def produce():
    global is_full
    with condition:
        is_full = True
        condition.notify_all()
    box["item"] = "cake"  # race: write


def consume():
    with condition:
        condition.wait_for(lambda: is_full)
    print(box.get("item") in (None, "cake"))  # race: read


threads = [threading.Thread(target=consume), threading.Thread(target=produce)]
for thread in threads:
    thread.start()
for thread in threads:
    thread.join()
