"""A table is sorted in place while another thread goes through it.

due: race
thing: scores
"""

import threading


class Table:
    def __init__(self, *scores):
        self.scores = list(scores)

    def order(self):
        self.scores.sort(reverse=True)  # race: write

    def text(self):
        return ", ".join(str(score) for score in self.scores)  # race: read


table = Table(3, 1, 2)
threads = [threading.Thread(target=table.order), threading.Thread(target=table.text)]
for thread in threads:
    thread.start()
for thread in threads:
    thread.join()
print(table.text())
