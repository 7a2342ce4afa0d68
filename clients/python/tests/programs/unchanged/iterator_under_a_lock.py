"""Two threads draw from one iterator of a list under a lock, and the main thread takes what is left.

due: none
"""

import threading

lock = threading.Lock()
tickets = iter(["a", "b", "c"])
drawn = []


def draw():
    with lock:
        drawn.append(next(tickets))


threads = [threading.Thread(target=draw) for _ in range(2)]
for thread in threads:
    thread.start()
for thread in threads:
    thread.join()
print(len(drawn), [*tickets])
