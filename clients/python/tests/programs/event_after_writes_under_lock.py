"""Writers fill an index under a lock, the last one sets an event, and then it is only read.

due: none
thing: index
"""

import threading

from itc_trace import shared

index = shared({}, "index")
lock = threading.Lock()
complete = threading.Event()
WRITERS = 3


def write(number):
    with lock:
        index[number] = f"page {number}"
        if len(index) == WRITERS:
            complete.set()


def read():
    complete.wait()
    for number in range(WRITERS):
        index[number]


threads = [threading.Thread(target=read) for _ in range(2)]
threads += [threading.Thread(target=write, args=(number,)) for number in range(WRITERS)]
for thread in threads:
    thread.start()
for thread in threads:
    thread.join()
print(len(index))
