"""All that the threads read was written before they were started.

due: none
"""

import threading

PRIMES = [2]
for number in range(3, 30):
    if all(number % prime for prime in PRIMES):
        PRIMES.append(number)
found = []


def is_prime(number):
    found.append((number, number in PRIMES))


threads = [threading.Thread(target=is_prime, args=(number,)) for number in (7, 9)]
for thread in threads:
    thread.start()
for thread in threads:
    thread.join()
PRIMES.append(31)
print(sorted(found), len(PRIMES))
