"""A semaphore of two permits is used where one is needed.

due: race
thing: seats
"""

import threading

from itc_trace import shared

seats = shared({"free": 2}, "seats")
gate = threading.Semaphore(2)


def book():
    with gate:
        seats["free"] -= 1  # race: read, write


threads = [threading.Thread(target=book) for _ in range(2)]
for thread in threads:
    thread.start()
for thread in threads:
    thread.join()
print(seats["free"] < 2)
