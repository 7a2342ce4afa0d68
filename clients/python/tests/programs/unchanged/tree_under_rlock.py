"""A tree is changed by a recursive function that takes its lock again.

due: none
"""

import threading


class Node:
    lock = threading.RLock()

    def __init__(self, depth):
        self.visits = 0
        self.children = [Node(depth - 1) for _ in range(2)] if depth else []

    def visit(self):
        with self.lock:
            self.visits += 1
            for child in self.children:
                child.visit()


root = Node(2)
threads = [threading.Thread(target=root.visit) for _ in range(2)]
for thread in threads:
    thread.start()
for thread in threads:
    thread.join()
print(root.visits, root.children[0].visits)
