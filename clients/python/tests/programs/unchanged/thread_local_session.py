"""Each thread has its own session in a subclass of `threading.local`.

due: none
"""

import threading


class Session(threading.local):
    def __init__(self):
        self.requests = 0
        self.user = None


session = Session()
handled = []


def handle(user):
    session.user = user
    for _ in range(3):
        session.requests += 1
    handled.append((session.user, session.requests))


threads = [threading.Thread(target=handle, args=(user,)) for user in ("ann", "bea")]
for thread in threads:
    thread.start()
for thread in threads:
    thread.join()
print(sorted(handled))
