"""Only the lock of the log happens to put the writing before the reading.

due: possible
thing: settings
"""

import threading

import _baton
from itc_trace import shared

settings = shared({"level": "info"}, "settings")
log_lock, lines = threading.Lock(), []


def log(text):
    with log_lock:
        lines.append(text)


def change():
    settings["level"] = "debug"  # race: write
    log("changed")
    _baton.hand_on()


def show():
    _baton.wait()
    log("shown")
    print(settings["level"])  # race: read


threads = [threading.Thread(target=change), threading.Thread(target=show)]
for thread in threads:
    thread.start()
for thread in threads:
    thread.join()
