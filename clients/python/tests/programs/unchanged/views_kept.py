"""The view of a table's values is made before the threads, and summed up while one of them adds a value.

due: race
thing: costs or values or bills
"""

import threading

bills = {"tea": 3}
costs = bills.values()


def add():
    bills["milk"] = 1  # race: write


def total():
    return sum(costs)  # race: read


threads = [threading.Thread(target=add), threading.Thread(target=total)]
for thread in threads:
    thread.start()
for thread in threads:
    thread.join()
print(total())
