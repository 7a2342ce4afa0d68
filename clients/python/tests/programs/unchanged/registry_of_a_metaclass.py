"""A class is registered by its metaclass, while another thread counts the classes.

due: race
thing: Registry.classes or classes
"""

import threading


class Registry(type):
    classes = {}

    def __new__(mcs, name, bases, space):
        made = super().__new__(mcs, name, bases, space)
        mcs.classes[name] = made  # race: write
        return made


def run(*works):
    threads = [threading.Thread(target=work) for work in works]
    for thread in threads:
        thread.start()
    for thread in threads:
        thread.join()


def define():
    class Part(metaclass=Registry):
        pass


def look():
    print(len(Registry.classes) < 3)  # race: read


run(define, look)
