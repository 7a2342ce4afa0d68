"""A worker sets the event first and stores the result afterwards.

due: race
thing: result
"""

import threading

from itc_trace import shared

ready = threading.Event()
result = shared({}, "result")


def work():
    ready.set()
    result["value"] = 42  # race: write


worker = threading.Thread(target=work)
worker.start()
ready.wait()
print(result.get("value") in (None, 42))  # race: read
worker.join()
