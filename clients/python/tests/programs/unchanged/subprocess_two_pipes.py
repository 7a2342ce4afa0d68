"""Two threads read the two pipes of a child and count the words of both in one table.

due: race
thing: words
"""

import collections
import subprocess
import sys
import threading

PROGRAM = "import sys; print('red green red'); print('red blue', file=sys.stderr)"
words = collections.Counter()


def count(pipe):
    for line in pipe:
        for word in line.split():
            words[word] += 1  # race: read, write
    pipe.close()


child = subprocess.Popen([sys.executable, "-c", PROGRAM], stdout=subprocess.PIPE, stderr=subprocess.PIPE, text=True)
readers = [threading.Thread(target=count, args=(pipe,)) for pipe in (child.stdout, child.stderr)]
for reader in readers:
    reader.start()
for reader in readers:
    reader.join()
print(child.wait(), sum(words.values()) > 0)
