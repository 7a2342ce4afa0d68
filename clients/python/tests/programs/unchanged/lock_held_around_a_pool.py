"""A lock is held while a pool of threads of `multiprocessing` does a job.

due: none
"""
import threading
from multiprocessing.pool import ThreadPool

lock, ledger = threading.Lock(), {"sum": 0}


def add(number):
    ledger["sum"] += number


def book(number):
    with lock:
        pool.apply(add, (number,))


with ThreadPool(2) as pool:
    threads = [threading.Thread(target=book, args=(number,)) for number in (1, 2)]
    for thread in threads:
        thread.start()
    for thread in threads:
        thread.join()
print(ledger["sum"])
