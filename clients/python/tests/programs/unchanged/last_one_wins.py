"""All meet at a barrier and then enter the same best time.

due: race
thing: best['time']
"""

import threading

best = {"time": None}
barrier = threading.Barrier(2)


def run(seconds):
    barrier.wait()
    if best["time"] is None or seconds < best["time"]:  # race: read
        best["time"] = seconds  # race: write


threads = [threading.Thread(target=run, args=(seconds,)) for seconds in (9.8, 9.9)]
for thread in threads:
    thread.start()
for thread in threads:
    thread.join()
print(best["time"] in (9.8, 9.9))
