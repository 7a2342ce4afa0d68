"""Two threads push and pop one heap without a lock.

due: race
thing: heap
"""

import heapq
import threading

heap = [3, 5]


def push(number):
    heapq.heappush(heap, number)  # race: write


def pop():
    return heapq.heappop(heap)  # race: write


threads = [threading.Thread(target=push, args=(4,)), threading.Thread(target=pop)]
for thread in threads:
    thread.start()
for thread in threads:
    thread.join()
print(len(heap))
