"""Methods of containers have other names, or are given to functions that call them.

due: race
thing: items or stock or rates or table
"""

import operator
import threading

items, stock, rates, table = [0], {"a": 1, "b": 2}, {"usd": 1, "eur": 2}, {}


def insert(into, key):
    into(key)  # also: write


def change():
    push = items.append
    push(1)  # race: write
    insert(push, 2)
    print(list(map(stock.pop, ["a"])))  # race: write
    rates["usd"] = 3  # race: write
    operator.setitem(table, "x", 1)  # race: write


def look():
    print(sum(items) < 4)  # race: read
    print(stock.get("a") in (None, 1))  # race: read
    print(sorted(["usd", "eur"], key=rates.get))  # race: read
    print(table.get("x") in (None, 1))  # race: read


threads = [threading.Thread(target=change), threading.Thread(target=look)]
for thread in threads:
    thread.start()
for thread in threads:
    thread.join()
