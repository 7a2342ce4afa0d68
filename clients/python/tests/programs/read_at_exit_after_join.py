"""A handler at exit reads what the threads counted, once all of them were joined.

due: none
thing: statistics
"""

import atexit
import threading

from itc_trace import shared

statistics = shared({"requests": 0}, "statistics")
lock = threading.Lock()


@atexit.register
def report():
    print(statistics["requests"])


def serve():
    with lock:
        statistics["requests"] += 1


def main():
    threads = [threading.Thread(target=serve) for _ in range(3)]
    for thread in threads:
        thread.start()
    for thread in threads:
        thread.join()


main()
