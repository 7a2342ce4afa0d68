"""Each thread fills its own index of a list.

due: none
"""

import threading


def fill(results, index, value):
    results[index] = value
    results[index] += 1


def main():
    results = [None] * 3
    threads = [threading.Thread(target=fill, args=(results, index, index * 10)) for index in range(3)]
    for thread in threads:
        thread.start()
    for thread in threads:
        thread.join()
    print(results)


main()
