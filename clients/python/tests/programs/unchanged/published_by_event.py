"""A configuration is filled, then an event tells that it is complete.

due: none
"""

import threading

configuration = {}
complete = threading.Event()


def load():
    for name in ("host", "port"):
        configuration[name] = name.upper()
    complete.set()


def use():
    complete.wait()
    return [configuration[name] for name in sorted(configuration)]


threads = [threading.Thread(target=use) for _ in range(2)] + [threading.Thread(target=load)]
for thread in threads:
    thread.start()
for thread in threads:
    thread.join()
print(len(configuration))
