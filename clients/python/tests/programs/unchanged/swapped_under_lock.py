"""A writer puts a new tuple in place of the old one under a lock, and readers take it under the lock.

due: none
"""

import threading


class Routes:
    def __init__(self):
        self._lock = threading.Lock()
        self._routes = ()

    def add(self, route):
        with self._lock:
            self._routes = (*self._routes, route)

    def find(self, prefix):
        with self._lock:
            routes = self._routes
        return [route for route in routes if route.startswith(prefix)]


routes = Routes()
threads = [threading.Thread(target=routes.add, args=(route,)) for route in ("/a", "/b")]
threads += [threading.Thread(target=routes.find, args=("/",)) for _ in range(2)]
for thread in threads:
    thread.start()
for thread in threads:
    thread.join()
print(len(routes.find("/")))
