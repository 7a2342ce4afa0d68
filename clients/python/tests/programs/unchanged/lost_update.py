"""Two clerks sell from one stock, and one sale may be lost.

due: race
thing: stock['left']
"""

import threading

stock = {"left": 10}


def sell():
    stock["left"] -= 1  # race: read, write


clerks = [threading.Thread(target=sell) for _ in range(2)]
for clerk in clerks:
    clerk.start()
for clerk in clerks:
    clerk.join()
print(stock["left"] < 10)
