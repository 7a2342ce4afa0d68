"""How many wait in all lines is counted, while one more comes.

due: race
thing: lines[..]
"""

import threading

lines = [[], [], []]
waiting = []


def come(number):
    lines[number % 3].append(number)  # race: write


def count():
    waiting.append(sum(map(len, lines)))  # race: read


threads = [threading.Thread(target=count), threading.Thread(target=come, args=(1,))]
for thread in threads:
    thread.start()
for thread in threads:
    thread.join()
print(len(waiting))
