"""Threads look into a cache, and load what is not there: between the look and the entry another one may have loaded it too.

Usage: cache.py [fixed]
"""

import sys
import threading
from contextlib import nullcontext

import itc_trace

cache: dict[str, str] = itc_trace.shared({}, "cache")
lock = threading.Lock() if "fixed" in sys.argv else nullcontext()


def load(name: str) -> str:
    return name.upper()


def find(name: str) -> str:
    with lock:
        if name not in cache:
            cache[name] = load(name)
        return cache[name]


threads = [threading.Thread(target=find, args=("page",)) for _ in range(3)]
for thread in threads:
    thread.start()
for thread in threads:
    thread.join()
print("cached:", sorted(cache))
