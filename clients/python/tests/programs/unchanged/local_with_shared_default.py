"""A subclass of threading.local has a list in its class, which all threads share.

due: race
thing: Request.headers or headers
"""

import threading


class Request(threading.local):
    headers = []


request = Request()


def handle(name):
    request.headers.insert(0, name)  # race: write
    return request.headers[0]  # also: read


threads = [threading.Thread(target=handle, args=(name,)) for name in ("a", "b")]
for thread in threads:
    thread.start()
for thread in threads:
    thread.join()
print(len(Request.headers))
