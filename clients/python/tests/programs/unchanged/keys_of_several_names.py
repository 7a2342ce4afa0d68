"""Each thread has a key of its own in a table, and one of the keys has a name that the package uses, too.

due: none
"""

import threading

table = dict.fromkeys(("shape", "thread", "object", "fields", "elements", "key", "root"), 0)


def work(name):
    table[name] += 1


threads = [threading.Thread(target=work, args=(name,)) for name in list(table)]
for thread in threads:
    thread.start()
for thread in threads:
    thread.join()
print(table)
