"""A cache of weak references is looked through and filled under its lock.

due: none
"""

import threading
import weakref


class Image:
    def __init__(self, name):
        self.name = name


class Cache:
    def __init__(self):
        self._lock = threading.Lock()
        self._images = weakref.WeakValueDictionary()

    def get(self, name):
        with self._lock:
            image = self._images.get(name)
            if image is None:
                image = self._images[name] = Image(name)
            return image


cache = Cache()
kept = []
threads = [threading.Thread(target=lambda: kept.append(cache.get("logo"))) for _ in range(3)]
for thread in threads:
    thread.start()
for thread in threads:
    thread.join()
print(len({image.name for image in kept}))
