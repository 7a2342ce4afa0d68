"""A signal asks for new settings: the handler puts them in and sets an event, which a worker waits for.

due: none
"""

import os
import signal
import threading

settings = {"level": 1}
reloaded = threading.Event()


def reload(number, frame):
    settings["level"] += 1
    reloaded.set()


def work(seen):
    reloaded.wait()
    seen.append(settings["level"])


signal.signal(signal.SIGUSR1, reload)
seen = []
worker = threading.Thread(target=work, args=(seen,))
worker.start()
os.kill(os.getpid(), signal.SIGUSR1)
worker.join()
print(seen)
