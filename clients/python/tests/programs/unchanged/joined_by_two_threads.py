"""Two threads join what is left of one generator expression into texts.

due: race
thing: words
"""

import threading

words = (word.upper() for word in ("a", "b", "c"))
texts = []


def join():
    try:
        texts.append(",".join(words))  # race: write
    except ValueError:
        texts.append("")


threads = [threading.Thread(target=join) for _ in range(2)]
for thread in threads:
    thread.start()
for thread in threads:
    thread.join()
print(len(texts))
