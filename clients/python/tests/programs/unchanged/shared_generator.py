"""Two threads take from one generator.

due: race
thing: tickets
"""

import threading


def numbers():
    number = 0
    while True:
        number += 1
        yield number


tickets = numbers()


def take():
    try:
        return next(tickets)  # race: write
    except ValueError:
        return None


threads = [threading.Thread(target=take) for _ in range(2)]
for thread in threads:
    thread.start()
for thread in threads:
    thread.join()
print("taken")
