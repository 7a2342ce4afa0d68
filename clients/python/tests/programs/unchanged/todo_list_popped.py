"""Workers take tasks from a list as long as it is not empty.

due: race
thing: todo
"""

import threading

todo = ["a", "b", "c"]


def work():
    while todo:  # race: read
        try:
            todo.pop()  # race: write
        except IndexError:
            break


workers = [threading.Thread(target=work) for _ in range(2)]
for worker in workers:
    worker.start()
for worker in workers:
    worker.join()
print(todo)
