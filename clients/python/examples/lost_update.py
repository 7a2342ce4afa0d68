"""Two threads sell from one stock. Each reads it and writes it back, less one: one sale may be lost.

Usage: lost_update.py [fixed]
"""

import sys
import threading

import itc_trace

stock = itc_trace.shared({"left": 2}, "stock")
lock = threading.Lock()


def sell() -> None:
    left = stock["left"]
    stock["left"] = left - 1


def sell_in_turn() -> None:
    with lock:
        sell()


target = sell_in_turn if "fixed" in sys.argv else sell
threads = [threading.Thread(target=target, name=name) for name in ("alice", "bob")]
for thread in threads:
    thread.start()
for thread in threads:
    thread.join()
print("left:", stock["left"])
