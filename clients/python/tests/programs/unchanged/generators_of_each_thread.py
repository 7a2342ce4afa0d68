"""Each thread goes through a generator of its own over a list that nobody changes.

due: none
"""

import threading

NUMBERS = list(range(10))


def even(numbers):
    for number in numbers:
        if number % 2 == 0:
            yield number


class Sum:
    def __init__(self, numbers):
        self.numbers = numbers
        self.total = 0

    def run(self):
        for number in self.numbers:
            self.total += number


sums = [Sum(even(NUMBERS)), Sum(even(NUMBERS)), Sum(iter(NUMBERS))]
threads = [threading.Thread(target=one.run) for one in sums]
for thread in threads:
    thread.start()
for thread in threads:
    thread.join()
print([one.total for one in sums])
