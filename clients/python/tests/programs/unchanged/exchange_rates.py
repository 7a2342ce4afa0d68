"""Looks a rate up in a cache, and enters it if it is not there yet.

due: race
thing: rates['EUR']
"""

import threading

rates = {}


def fetch(currency):
    return {"EUR": 1.1, "GBP": 1.3}[currency]


def rate(currency):
    if currency not in rates:  # race: read
        rates[currency] = fetch(currency)  # race: write
    return rates[currency]  # also: read


threads = [threading.Thread(target=rate, args=("EUR",)) for _ in range(2)]
for thread in threads:
    thread.start()
for thread in threads:
    thread.join()
print(rates)
