"""Parent and child each have a lock, and the child's field is changed under either of them.

due: race
thing: Child.age
"""

import threading


class Child:
    def __init__(self):
        self.lock = threading.Lock()
        self.age = 0

    def grow(self):
        with self.lock:
            self.age += 1  # race: read, write


class Parent:
    def __init__(self, child):
        self.lock = threading.Lock()
        self.child = child

    def celebrate(self):
        with self.lock:
            self.child.age += 1  # race: read, write


child = Child()
parent = Parent(child)
threads = [threading.Thread(target=child.grow), threading.Thread(target=parent.celebrate)]
for thread in threads:
    thread.start()
for thread in threads:
    thread.join()
print(child.age in (1, 2))
