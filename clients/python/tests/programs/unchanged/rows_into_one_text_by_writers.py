"""Each thread has a writer of its own for one text, and adds a row to it. Nobody looks at the text before the end.

due: none
"""

import csv
import io
import threading

text = io.StringIO()


def export(name):
    csv.writer(text).writerow([name, 1])


threads = [threading.Thread(target=export, args=(name,)) for name in ("tea", "milk")]
for thread in threads:
    thread.start()
for thread in threads:
    thread.join()
print(sorted(text.getvalue().split()))
