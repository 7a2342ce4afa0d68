"""An object hands on what it has not itself, and so adds to the list that another thread goes through.

due: race
thing: stock
"""

import threading


class Logged:
    def __init__(self, inner):
        self._inner = inner

    def __getattr__(self, name):
        return getattr(self._inner, name)


stock = ["tea"]
logged = Logged(stock)


def add():
    logged.append("milk")  # race: write


def show():
    print(", ".join(stock))  # race: read


threads = [threading.Thread(target=add), threading.Thread(target=show)]
for thread in threads:
    thread.start()
for thread in threads:
    thread.join()
