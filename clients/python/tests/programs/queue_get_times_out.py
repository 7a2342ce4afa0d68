"""A queue stays empty for too long, and the reader looks at the result without its message.

due: race
thing: build
"""

import queue
import threading

import _baton
from itc_trace import shared

build = shared({"state": "running"}, "build")
messages = queue.Queue()


def compile_all():
    _baton.wait()
    build["state"] = "done"  # race: write
    messages.put("built")


compiler = threading.Thread(target=compile_all)
compiler.start()
try:
    messages.get(timeout=0.01)
except queue.Empty:
    print(build["state"] in ("running", "done"))  # race: read
_baton.hand_on()
compiler.join()
