"""A producer notifies under the lock, and adds to the result behind it.

due: race
thing: result
"""

import threading

ready = threading.Condition()
result = {"rows": 0}
is_ready = False


def produce():
    global is_ready
    with ready:
        result["rows"] = 1
        is_ready = True
        ready.notify_all()
    result["rows"] += 1  # race: write, read


def consume():
    with ready:
        ready.wait_for(lambda: is_ready)
    return result["rows"]  # race: read


threads = [threading.Thread(target=one) for one in (consume, produce)]
for thread in threads:
    thread.start()
for thread in threads:
    thread.join()
print(result["rows"])
