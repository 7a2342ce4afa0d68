"""Functions share a variable of the function around them, and its lock.

due: none
"""

import threading


def make_account(balance):
    lock = threading.Lock()

    def withdraw(amount):
        nonlocal balance
        with lock:
            if balance < amount:
                return False
            balance -= amount
            return True

    def left():
        with lock:
            return balance

    return withdraw, left


withdraw, left = make_account(10)
threads = [threading.Thread(target=withdraw, args=(6,)) for _ in range(2)]
for thread in threads:
    thread.start()
for thread in threads:
    thread.join()
print(left())
