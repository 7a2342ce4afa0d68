"""A pool maps words to counts, and the caller adds them up.

due: none
"""

from concurrent.futures import ThreadPoolExecutor


def count(line):
    counts = {}
    for word in line.split():
        counts[word] = counts.get(word, 0) + 1
    return counts


def main(lines):
    total = {}
    with ThreadPoolExecutor(max_workers=2) as pool:
        for counts in pool.map(count, lines):
            for word, number in counts.items():
                total[word] = total.get(word, 0) + number
    return total


print(main(["a b a", "b c", "a"]))
