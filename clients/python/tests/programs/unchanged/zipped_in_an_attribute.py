"""A class keeps pairs in an attribute, and two threads take the next one.

due: race
thing: Deal.pairs
"""

import threading


class Deal:
    def __init__(self, names, cards):
        self.pairs = zip(names, cards)

    def deal(self):
        return next(self.pairs, None)  # race: write


deal = Deal(["ann", "bob"], [7, 9])
threads = [threading.Thread(target=deal.deal) for _ in range(2)]
for thread in threads:
    thread.start()
for thread in threads:
    thread.join()
print(deal.deal())
