"""A class looks at each attribute that is asked for.

due: race
thing: Audited.total
"""

import threading


class Audited:
    def __init__(self):
        self.total = 0

    def __getattribute__(self, name):
        if name.startswith("secret"):
            raise AttributeError(name)
        return super().__getattribute__(name)  # race: read


audited = Audited()


def work():
    audited.total += 1  # race: read, write


threads = [threading.Thread(target=work) for _ in range(2)]
for thread in threads:
    thread.start()
for thread in threads:
    thread.join()
print(audited.total > 0)
