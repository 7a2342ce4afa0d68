"""Adds up numbers in threads into a global variable.

due: race
thing: total
"""

import threading

total = 0


def add(numbers):
    global total
    for number in numbers:
        total += number  # race: read, write


def main():
    threads = [threading.Thread(target=add, args=(range(first, first + 3),)) for first in (0, 3)]
    for thread in threads:
        thread.start()
    for thread in threads:
        thread.join()
    print(total <= 15)


if __name__ == "__main__":
    main()
