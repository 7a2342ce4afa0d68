"""Fields of a record are set and read by their names.

due: race
thing: Record.state
"""

import threading


class Record:
    state = "new"


record = Record()
record.state = "open"


def change(name, value):
    setattr(record, name, value)  # race: write


def show(name):
    return getattr(record, name)  # race: read


threads = [threading.Thread(target=change, args=("state", "closed")), threading.Thread(target=show, args=("state",))]
for thread in threads:
    thread.start()
for thread in threads:
    thread.join()
print(record.state)
