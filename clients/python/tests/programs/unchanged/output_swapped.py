"""Two threads catch what they print by putting another file in the place of the output, and one prints into the other's.

due: race
thing: sys.stdout
"""

import io
import sys
import threading


def caught():
    kept = sys.stdout  # race: read
    sys.stdout = io.StringIO()  # race: write
    sys.stdout.write("caught")  # also: read
    sys.stdout = kept  # also: write


threads = [threading.Thread(target=caught) for _ in range(2)]
for thread in threads:
    thread.start()
for thread in threads:
    thread.join()
