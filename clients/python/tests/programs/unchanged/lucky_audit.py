"""Only the lock of the audit's list puts the price before its use.

due: possible
thing: Offer.price
"""

import threading

import _baton


class Audit:
    def __init__(self):
        self.lock = threading.Lock()
        self.entries = []

    def enter(self, text):
        with self.lock:
            self.entries.append(text)


class Offer:
    def __init__(self):
        self.price = 10


audit, offer = Audit(), Offer()


def raise_price():
    offer.price = 12  # race: write
    audit.enter("raised")
    _baton.hand_on()


def sell():
    _baton.wait()
    audit.enter("sold")
    return offer.price  # race: read


threads = [threading.Thread(target=raise_price), threading.Thread(target=sell)]
for thread in threads:
    thread.start()
for thread in threads:
    thread.join()
