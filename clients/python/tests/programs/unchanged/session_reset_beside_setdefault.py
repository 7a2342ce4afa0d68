"""A session is made by who needs it first, while another thread puts a new one in its place.

due: race
thing: sessions['ann']
"""

import threading
import time

sessions = {}


def visit(name, page):
    sessions.setdefault(name, []).append(page)  # race: write


def reset(name):
    time.sleep(0.2)  # Else the key may be there, and the other thread looks at it alone.
    sessions[name] = []  # race: write


threads = [threading.Thread(target=visit, args=("ann", "/")), threading.Thread(target=reset, args=("ann",))]
for thread in threads:
    thread.start()
for thread in threads:
    thread.join()
print(len(sessions))
