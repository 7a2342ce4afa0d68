"""Rows are written into a text in memory, which is counted meanwhile.

due: race
thing: text
"""

import csv
import io
import threading

text = io.StringIO()
report = csv.DictWriter(text, ["name", "price"])
report.writeheader()


def export(names):
    for name in names:
        report.writerow({"name": name, "price": 1})  # race: write


def count():
    print(text.getvalue().count("\n") > 0)  # race: read


threads = [threading.Thread(target=export, args=(["tea", "milk"],)), threading.Thread(target=count)]
for thread in threads:
    thread.start()
for thread in threads:
    thread.join()
