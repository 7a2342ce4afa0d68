"""A UserDict looks for a key and adds it in two steps, so two threads may have two sessions of one name.

due: race
thing: sessions['ann']
"""

import threading
from collections import UserDict

sessions = UserDict()


def visit(name):
    return sessions.setdefault(name, [])  # race: read, write


threads = [threading.Thread(target=visit, args=("ann",)) for _ in range(2)]
for thread in threads:
    thread.start()
for thread in threads:
    thread.join()
print(len(sessions))
