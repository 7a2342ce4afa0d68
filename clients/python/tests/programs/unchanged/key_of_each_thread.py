"""Each thread enters its result under its own name.

due: none
"""

import threading

results = {}


def measure(name):
    results[name] = 0
    for step in range(3):
        results[name] += step


threads = [threading.Thread(target=measure, args=(name,)) for name in ("a", "b", "c")]
for thread in threads:
    thread.start()
for thread in threads:
    thread.join()
print(sorted(results.items()))
