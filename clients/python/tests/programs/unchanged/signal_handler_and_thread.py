"""A signal handler reloads settings in the main thread, while a thread reads them.

due: race
thing: settings
"""

import os
import signal
import threading

settings = {"level": "info"}


def reload(*_):
    settings["level"] = "debug"  # race: write


def serve():
    return settings["level"]  # race: read


signal.signal(signal.SIGUSR1, reload)
serving = threading.Thread(target=serve)
serving.start()
os.kill(os.getpid(), signal.SIGUSR1)
serving.join()
print("served")
