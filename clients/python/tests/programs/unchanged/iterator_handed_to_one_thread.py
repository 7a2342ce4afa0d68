"""The main thread takes the head of an iterator, hands it to a thread, and takes the rest once that is joined.

due: none
"""

import csv
import threading

rows = csv.reader(["a,b", "1,2", "3,4", "5,6"])
head = next(rows)
kept = []


def read_some():
    for row in rows:
        kept.append(dict(zip(head, row)))
        if len(kept) == 2:
            break


thread = threading.Thread(target=read_some)
thread.start()
thread.join()
print(kept, next(rows), next(rows, None))
