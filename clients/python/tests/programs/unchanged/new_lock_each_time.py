"""A lock that is made in the function guards nothing.

due: race
thing: balance
"""

import threading

balance = 100


def withdraw(amount):
    global balance
    lock = threading.Lock()
    with lock:
        left = balance - amount  # race: read
        balance = left  # race: write


threads = [threading.Thread(target=withdraw, args=(amount,)) for amount in (10, 20)]
for thread in threads:
    thread.start()
for thread in threads:
    thread.join()
print(balance < 100)
