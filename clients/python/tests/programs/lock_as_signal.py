"""A lock that is released by another thread than acquired it tells that the work is done.

due: none
thing: work
"""

import threading

from itc_trace import shared

work = shared({"state": "new"}, "work")
done = threading.Lock()
done.acquire()


def do():
    work["state"] = "done"
    done.release()


threading.Thread(target=do).start()
done.acquire()
work["state"] += "!"
print(work["state"])
