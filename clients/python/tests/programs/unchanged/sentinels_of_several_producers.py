"""Producers fill lists of their own and put None at their end. The consumer reads all lists after as many.

due: none
"""
import queue
import threading

PRODUCERS = 4
found = [[] for _ in range(PRODUCERS)]
ends = queue.Queue()


def produce(number):
    for one in range(3):
        found[number].append(one)
    ends.put(None)


for number in range(PRODUCERS):
    threading.Thread(target=produce, args=(number,)).start()
for _ in range(PRODUCERS):
    ends.get()
print(sum(map(len, found)))
