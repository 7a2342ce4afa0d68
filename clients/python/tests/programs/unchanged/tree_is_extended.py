"""A list is extended by a tree, whose class goes through its own leaves, while another thread counts in the tree under a lock.

due: none
"""

import threading


class Tree:
    def __init__(self, *leaves):
        self.leaves = leaves
        self.visits = 0
        self.lock = threading.Lock()

    def __iter__(self):
        return iter(self.leaves)

    def visit(self):
        with self.lock:
            self.visits += 1


class Basket:
    def __init__(self):
        self.items = []

    def take(self, tree):
        self.items.extend(tree)


tree, basket = Tree("a", "b"), Basket()
threads = [threading.Thread(target=basket.take, args=(tree,)), threading.Thread(target=tree.visit)]
for thread in threads:
    thread.start()
for thread in threads:
    thread.join()
print(len(basket.items), tree.visits)
