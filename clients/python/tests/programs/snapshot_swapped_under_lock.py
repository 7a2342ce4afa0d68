"""Readers take the current configuration under a lock, and never change what they took.

due: none
thing: configuration
"""

import threading

from itc_trace import touch


class Configuration:
    def __init__(self):
        self._lock = threading.Lock()
        self._values = ("red",)

    def current(self):
        with self._lock:
            touch("configuration")
            return self._values

    def add(self, value):
        with self._lock:
            touch("configuration")
            values = (*self._values, value)
            touch("configuration", write=True)
            self._values = values


configuration = Configuration()
threads = [threading.Thread(target=configuration.add, args=(value,)) for value in ("green", "blue")]
threads += [threading.Thread(target=configuration.current)]
for thread in threads:
    thread.start()
for thread in threads:
    thread.join()
print(len(configuration.current()))
