"""Two threads write bytes into one buffer under a lock.

due: none
"""

import io
import threading

buffer, lock = io.BytesIO(), threading.Lock()

def run(*works):
    threads = [threading.Thread(target=work) for work in works]
    for thread in threads:
        thread.start()
    for thread in threads:
        thread.join()


def write():
    with lock:
        buffer.write(b"one")
        buffer.seek(0)


run(write, write)
