"""A loop in a thread goes on while a global flag is on.

due: race
thing: running
"""

import threading
import time

running = True


def pump():
    while running:  # race: read
        time.sleep(0.002)


def main():
    global running
    thread = threading.Thread(target=pump)
    thread.start()
    time.sleep(0.01)
    running = False  # race: write
    thread.join()


main()
print("stopped")
