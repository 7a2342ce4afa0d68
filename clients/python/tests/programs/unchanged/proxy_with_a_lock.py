"""A proxy looks up each attribute of its target under a lock, and sets it there under the lock.

due: none
"""

import threading


class Guarded:
    __slots__ = ("_lock", "_target")

    def __init__(self, target):
        object.__setattr__(self, "_lock", threading.RLock())
        object.__setattr__(self, "_target", target)

    def __getattr__(self, name):
        with self._lock:
            return getattr(self._target, name)

    def __setattr__(self, name, value):
        with self._lock:
            setattr(self._target, name, value)

    def __enter__(self):
        self._lock.acquire()
        return self._target

    def __exit__(self, *words):
        self._lock.release()


class Lamp:
    brightness = 0


lamp = Guarded(Lamp())


def brighten():
    with lamp as target:
        target.brightness += 1
    lamp.color = "red"
    return lamp.brightness, lamp.color


threads = [threading.Thread(target=brighten) for _ in range(3)]
for thread in threads:
    thread.start()
for thread in threads:
    thread.join()
print(lamp.brightness)
