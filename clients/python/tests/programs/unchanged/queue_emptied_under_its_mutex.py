"""Two threads empty a queue under the lock that it has itself.

due: none
"""
import queue
import threading

jobs = queue.Queue()
for number in range(4):
    jobs.put(number)


def give_up():
    with jobs.mutex:
        jobs.queue.clear()


threads = [threading.Thread(target=give_up) for _ in range(2)]
for thread in threads:
    thread.start()
for thread in threads:
    thread.join()
print(jobs.qsize())
