"""Nobody joins the threads: Python does so itself before it calls the handlers at exit.

due: none
thing: log
"""

import atexit
import threading

from itc_trace import shared

log = shared({}, "log")


def flush():
    print(log["line"])


def work():
    log["line"] = "worked"


atexit.register(flush)
threading.Thread(target=work).start()
