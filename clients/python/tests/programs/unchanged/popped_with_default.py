"""Two threads pop the same key and pay out what they got.

due: race
thing: vouchers['x1']
"""

import threading

vouchers = {"x1": 50}
paid = []


def redeem(code):
    amount = vouchers.pop(code, 0)  # race: write
    paid.append(amount)


def is_valid(code):
    return vouchers.get(code) is not None  # race: read


threads = [threading.Thread(target=redeem, args=("x1",)), threading.Thread(target=is_valid, args=("x1",))]
for thread in threads:
    thread.start()
for thread in threads:
    thread.join()
print(paid)
