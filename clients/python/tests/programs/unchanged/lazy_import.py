"""Two threads import a module at its first use, and Python lets one of them run it.

due: none
uses: _catalogue.py
"""

import threading

prices = []


def look(item):
    import _catalogue
    prices.append(_catalogue.price(item))


threads = [threading.Thread(target=look, args=(item,)) for item in ("tea", "cake")]
for thread in threads:
    thread.start()
for thread in threads:
    thread.join()
print(sorted(prices))
