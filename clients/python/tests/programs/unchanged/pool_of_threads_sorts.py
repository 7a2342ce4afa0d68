"""Functions of a ThreadPool sort and fill one list.

due: race
thing: found
"""

from multiprocessing.pool import ThreadPool

found = []


def search(text):
    found.append(len(text))  # race: write
    found.sort()  # race: write


with ThreadPool(2) as pool:
    for _ in pool.imap_unordered(search, ["one", "three"]):
        pass
print(len(found))
