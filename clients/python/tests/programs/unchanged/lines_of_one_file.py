"""Two threads read lines of one text file.

due: race
thing: lines
"""

import tempfile
import threading

with tempfile.TemporaryFile("w+") as lines:
    lines.write("a\nb\nc\nd\n")
    lines.seek(0)
    read = []

    def work():
        read.append(next(lines, ""))  # race: write

    threads = [threading.Thread(target=work) for _ in range(2)]
    for thread in threads:
        thread.start()
    for thread in threads:
        thread.join()
    print(len(read))
