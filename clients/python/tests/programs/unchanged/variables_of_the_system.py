"""A thread sets a variable of the system, which another one reads.

due: race
thing: environ
"""

import os
import threading

os.environ["SHOP"] = "open"

def run(*works):
    threads = [threading.Thread(target=work) for work in works]
    for thread in threads:
        thread.start()
    for thread in threads:
        thread.join()


def change():
    os.environ["SHOP"] = "closed"  # race: write


def look():
    print(os.environ["SHOP"] != "")  # race: read


run(change, look)
