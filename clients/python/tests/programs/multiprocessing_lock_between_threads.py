"""A lock of `multiprocessing` keeps threads of one process apart.

due: none
thing: pages
"""

import multiprocessing
import threading

from itc_trace import shared

pages = shared({"printed": 0}, "pages")
lock = multiprocessing.Lock()


def print_page():
    for _ in range(2):
        with lock:
            pages["printed"] += 1


threads = [threading.Thread(target=print_page) for _ in range(3)]
for thread in threads:
    thread.start()
for thread in threads:
    thread.join()
print(pages["printed"])
