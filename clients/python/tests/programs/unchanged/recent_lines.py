"""A window of recent lines is shown while another thread adds to it.

due: race
thing: recent
"""

import threading
from collections import deque

recent = deque(["boot"], maxlen=3)


def write():
    recent.append("login")  # race: write


def show():
    return list(recent)  # race: read


threads = [threading.Thread(target=write), threading.Thread(target=show)]
for thread in threads:
    thread.start()
for thread in threads:
    thread.join()
print(list(recent))
