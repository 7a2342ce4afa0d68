"""A decorator counts calls in an attribute of the method, which another thread asks for through an object.

due: race
thing: calls
"""

import functools
import threading


def counted(function):
    @functools.wraps(function)
    def call(*words):
        call.calls += 1  # race: write
        return function(*words)

    call.calls = 0
    return call


class Shop:
    @counted
    def sell(self):
        return "sold"


shop = Shop()


def look():
    return shop.sell.calls  # race: read


threads = [threading.Thread(target=shop.sell), threading.Thread(target=look)]
for thread in threads:
    thread.start()
for thread in threads:
    thread.join()
print(shop.sell.calls)
