"""A proxy passes attributes on to its target by `__getattr__` and `__setattr__`.

due: race
thing: Target.value
"""

import threading


class Target:
    value = 0


class Proxy:
    def __init__(self, target):
        object.__setattr__(self, "target", target)

    def __getattr__(self, name):
        return getattr(self.target, name)

    def __setattr__(self, name, value):
        setattr(self.target, name, value)


target = Target()
proxy = Proxy(target)


def write():
    target.value = 1  # race: write


def read():
    return target.value  # race: read


threads = [threading.Thread(target=write), threading.Thread(target=read)]
for thread in threads:
    thread.start()
for thread in threads:
    thread.join()
print(proxy.value)
