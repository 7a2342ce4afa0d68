"""All runners pass a barrier, and each then enters itself as the winner.

due: race
thing: podium
"""

import threading

from itc_trace import shared

start = threading.Barrier(3)
podium = shared({"winner": None}, "podium")


def run(name):
    start.wait()
    podium["winner"] = name  # race: write


threads = [threading.Thread(target=run, args=(name,)) for name in ("ann", "bea", "cy")]
for thread in threads:
    thread.start()
for thread in threads:
    thread.join()
print(podium["winner"] is not None)
