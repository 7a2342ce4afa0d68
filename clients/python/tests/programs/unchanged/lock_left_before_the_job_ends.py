"""Whoever holds the lock gives a pool a job, and waits for it only behind the lock.

due: race
thing: sum
"""
import threading
from concurrent.futures import ThreadPoolExecutor

lock, ledger = threading.Lock(), {"sum": 0}


def add(number):
    ledger["sum"] += number  # race: read, write


def book(number):
    with lock:
        job = pool.submit(add, number)
    job.result()


with ThreadPoolExecutor(2) as pool:
    threads = [threading.Thread(target=book, args=(number,)) for number in (1, 2)]
    for thread in threads:
        thread.start()
    for thread in threads:
        thread.join()
print(ledger["sum"] in (1, 2, 3))
