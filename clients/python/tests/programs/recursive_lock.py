"""A tree is walked by a method that takes its recursive lock again at each level.

due: none
thing: tree
"""

import threading

from itc_trace import shared


class Tree:
    def __init__(self):
        self._lock = threading.RLock()
        self.nodes = shared({}, "tree")

    def grow(self, depth):
        with self._lock:
            self.nodes[depth] = self.nodes.get(depth, 0) + 1
            if depth:
                self.grow(depth - 1)


tree = Tree()
threads = [threading.Thread(target=tree.grow, args=(2,)) for _ in range(3)]
for thread in threads:
    thread.start()
for thread in threads:
    thread.join()
print(tree.nodes)
