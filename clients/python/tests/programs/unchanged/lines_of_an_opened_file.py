"""Workers share one open text file and loop through its lines.

due: race
thing: log
"""

import os
import tempfile
import threading

with tempfile.TemporaryDirectory() as folder:
    path = os.path.join(folder, "log")
    with open(path, "w") as file:
        file.write("1\n2\n3\n4\n")
    counts = []
    log = open(path)

    def count():
        counts.append(0)
        for line in log:  # race: write
            int(line)

    threads = [threading.Thread(target=count) for _ in range(2)]
    for thread in threads:
        thread.start()
    for thread in threads:
        thread.join()
    log.close()
print(len(counts))
