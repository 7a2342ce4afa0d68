"""A thread appends to the list of places of modules, whose length another one asks for.

due: race
thing: path
"""

import sys
import threading

def run(*works):
    threads = [threading.Thread(target=work) for work in works]
    for thread in threads:
        thread.start()
    for thread in threads:
        thread.join()


def add():
    sys.path.append("/nowhere")  # race: write


def look():
    print(len(sys.path) > 0)  # race: read


run(add, look)
