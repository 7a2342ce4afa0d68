"""Each thread prints into a text of its own.

due: none
"""

import io
import threading

def run(*works):
    threads = [threading.Thread(target=work) for work in works]
    for thread in threads:
        thread.start()
    for thread in threads:
        thread.join()


def write():
    buffer = io.StringIO()
    print("one", file=buffer)
    buffer.write("two")
    print(len(buffer.getvalue()))


run(write, write)
