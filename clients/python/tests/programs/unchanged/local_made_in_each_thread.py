"""A subclass of threading.local makes a list for each thread.

due: none
"""

import threading


class Request(threading.local):
    def __init__(self):
        self.headers = []


request = Request()


def handle(name):
    request.headers.insert(0, name)
    request.headers.sort()


threads = [threading.Thread(target=handle, args=(name,)) for name in ("a", "b")]
for thread in threads:
    thread.start()
for thread in threads:
    thread.join()
print(request.headers)
