"""A list goes from thread to thread by simple queues, and each adds to it.

due: none
thing: letter
"""

import queue
import threading

from itc_trace import shared


def pass_on(source, target, word):
    letter = source.get()
    letter.append(word)
    target.put(letter)


queues = [queue.SimpleQueue() for _ in range(4)]
threads = [
    threading.Thread(target=pass_on, args=(queues[number], queues[number + 1], word))
    for number, word in enumerate(("dear", "old", "friend"))
]
for thread in threads:
    thread.start()
letter = shared([], "letter")
letter.append("my")
queues[0].put(letter)
print(queues[-1].get())
for thread in threads:
    thread.join()
