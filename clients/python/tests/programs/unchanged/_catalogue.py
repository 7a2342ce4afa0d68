"""What `lazy_import` imports."""

import time

PRICES = {}
for name in ("tea", "cake"):
    time.sleep(0.02)
    PRICES[name] = len(name)


def price(name):
    return PRICES[name]
