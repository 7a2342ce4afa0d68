"""Two threads swap the same two cards of a deck.

due: race
thing: deck[0] or deck[1]
"""

import threading

deck = ["ace", "king", "queen"]


def swap(one, other):
    deck[one], deck[other] = deck[other], deck[one]  # race: read, write


threads = [threading.Thread(target=swap, args=(0, 1)) for _ in range(2)]
for thread in threads:
    thread.start()
for thread in threads:
    thread.join()
print(sorted(deck))
