"""Subclasses of list and dict reach the methods of their bases, by super and by the name of the base.

due: race
thing: Log or Registry or log or registry
"""

import threading


class Log(list):
    def add(self, line):
        super().append(line)  # race: write

    def add_all(self, lines):
        list.extend(self, lines)  # race: write

    def size(self):
        return len(self)  # race: read


class Registry(dict):
    def register(self, name, value):
        super().__setitem__(name, value)  # race: write

    def find(self, name):
        return super().get(name)  # race: read


log, registry = Log(), Registry()


def change():
    log.add("a")
    log.add_all(["b"])
    registry.register("x", 1)


def look():
    print(log.size() < 4)
    print(registry.find("x") in (None, 1))


threads = [threading.Thread(target=change), threading.Thread(target=look)]
for thread in threads:
    thread.start()
for thread in threads:
    thread.join()
