"""The jobs of a pool fill dicts of their own, and the caller adds them up by `map`.

due: none
thing: chunk
"""

from concurrent.futures import ThreadPoolExecutor

from itc_trace import shared


def count(words):
    chunk = shared({}, f"chunk {words[0]}")
    for word in words:
        chunk[word] = chunk.get(word, 0) + 1
    return chunk


with ThreadPoolExecutor(3) as pool:
    total = {}
    for chunk in pool.map(count, [["a", "b"], ["b", "c"], ["d", "d"]]):
        for word, times in chunk.items():
            total[word] = total.get(word, 0) + times
print(sorted(total.items()))
