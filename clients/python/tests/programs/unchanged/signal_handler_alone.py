"""A signal handler and the main thread use what no other thread touches.

due: none
"""

import os
import signal
import threading

settings, asked = {"level": "info"}, threading.Event()


def reload(*_):
    settings["level"] = "debug"
    asked.set()


def serve():
    asked.wait()
    return settings["level"]


signal.signal(signal.SIGUSR1, reload)
serving = threading.Thread(target=serve)
serving.start()
os.kill(os.getpid(), signal.SIGUSR1)
serving.join()
print(settings["level"])
