"""A slice of a list is replaced while another thread takes its maximum.

due: race
thing: samples
"""

import threading

samples = [1, 2, 3, 4]


def replace(values):
    samples[1:3] = values  # race: write


def highest():
    return max(samples)  # race: read


threads = [threading.Thread(target=replace, args=([8, 9],)), threading.Thread(target=highest)]
for thread in threads:
    thread.start()
for thread in threads:
    thread.join()
print(highest())
