"""Whoever holds the lock has a pool do the job, and waits for it. What these jobs write is guarded so.

due: none
"""
import threading
from concurrent.futures import ThreadPoolExecutor

lock, ledger = threading.Lock(), {"sum": 0}


def add(number):
    ledger["sum"] += number


def book(number):
    with lock:
        pool.submit(add, number).result()


with ThreadPoolExecutor(2) as pool:
    threads = [threading.Thread(target=book, args=(number,)) for number in (1, 2)]
    for thread in threads:
        thread.start()
    for thread in threads:
        thread.join()
print(ledger["sum"])
