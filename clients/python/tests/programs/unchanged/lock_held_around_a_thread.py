"""Whoever holds the lock starts a thread and joins it. What these threads write is guarded so.

due: none
"""
import threading

lock, ledger = threading.Lock(), {"sum": 0}


def add(number):
    ledger["sum"] += number


def book(number):
    with lock:
        adding = threading.Thread(target=add, args=(number,))
        adding.start()
        adding.join()


threads = [threading.Thread(target=book, args=(number,)) for number in (1, 2)]
for thread in threads:
    thread.start()
for thread in threads:
    thread.join()
print(ledger["sum"])
