"""Three stages hand rows on by queues, and end on a sentinel.

due: none
"""

import queue
import threading

END = object()


def read(target):
    for number in range(3):
        target.put({"number": number})
    target.put(END)


def change(source, target):
    for row in iter(source.get, END):
        row["square"] = row["number"] ** 2
        target.put(row)
    target.put(END)


def collect(source, rows):
    for row in iter(source.get, END):
        row["collected"] = True
        rows.append(row)


first, second, rows = queue.Queue(), queue.Queue(maxsize=1), []
stages = [
    threading.Thread(target=read, args=(first,)),
    threading.Thread(target=change, args=(first, second)),
    threading.Thread(target=collect, args=(second, rows)),
]
for stage in stages:
    stage.start()
for stage in stages:
    stage.join()
print(sum(row["square"] for row in rows))
