"""The last minute of a window is raised by two threads.

due: race
thing: window[2]
"""

import threading
from collections import deque

window = deque([0, 0, 0], maxlen=3)


def hit():
    window[-1] += 1  # race: read, write


threads = [threading.Thread(target=hit) for _ in range(2)]
for thread in threads:
    thread.start()
for thread in threads:
    thread.join()
print(sum(window) <= 2)
