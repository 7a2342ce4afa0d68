"""A thread writes into a text in memory, which another one reads.

due: race
thing: buffer
"""

import io
import threading

buffer = io.StringIO()

def run(*works):
    threads = [threading.Thread(target=work) for work in works]
    for thread in threads:
        thread.start()
    for thread in threads:
        thread.join()


def write():
    buffer.write("one")  # race: write


def look():
    print(len(buffer.getvalue()) < 9)  # race: read


run(write, look)
