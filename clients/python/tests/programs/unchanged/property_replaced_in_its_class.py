"""A thread puts another property in the place of one, while a second thread asks an object for it.

due: race
thing: Shop.names
"""

import threading


class Shop:
    @property
    def names(self):
        return ("pear", "plum")


shop, found = Shop(), []


def replace():
    Shop.names = property(lambda self: ())  # race: write


def ask():
    found.append(shop.names)  # race: read


threads = [threading.Thread(target=replace), threading.Thread(target=ask)]
for thread in threads:
    thread.start()
for thread in threads:
    thread.join()
