"""Each thread has a buffer of its own in a thread-local, and gives it to the main thread at its end.

due: none
thing: buffer
"""

import queue
import threading

from itc_trace import shared

local = threading.local()
finished = queue.Queue()


def buffer():
    if not hasattr(local, "buffer"):
        local.buffer = shared([], f"buffer of {threading.current_thread().name}")
    return local.buffer


def work(count):
    for number in range(count):
        buffer().append(number)
    finished.put(buffer())


threads = [threading.Thread(target=work, args=(count,), name=f"worker{count}") for count in (1, 2, 3)]
for thread in threads:
    thread.start()
print(sum(len(finished.get()) for _ in threads))
for thread in threads:
    thread.join()
