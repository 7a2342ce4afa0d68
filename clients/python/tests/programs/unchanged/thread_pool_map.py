"""The thread pool of `multiprocessing` maps, and the caller goes on with what the jobs made.

due: none
"""

from multiprocessing.pool import ThreadPool


class Word:
    def __init__(self, text):
        self.text = text
        self.length = None


def measure(word):
    word.length = len(word.text)
    return word


words = [Word(text) for text in ("a", "bb", "ccc")]
pool = ThreadPool(2)
measured = pool.map(measure, words)
for word in measured:
    word.length += 1
pool.close()
pool.join()
print([word.length for word in words])
