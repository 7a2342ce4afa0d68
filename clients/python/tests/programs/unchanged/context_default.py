"""A context variable's default is one dict for all threads.

due: race
thing: ['user']
"""

import contextvars
import threading

request = contextvars.ContextVar("request", default={})


def handle(user):
    request.get()["user"] = user  # race: write
    return request.get()["user"]  # race: read


threads = [threading.Thread(target=handle, args=(user,)) for user in ("ann", "bea")]
for thread in threads:
    thread.start()
for thread in threads:
    thread.join()
print("handled")
