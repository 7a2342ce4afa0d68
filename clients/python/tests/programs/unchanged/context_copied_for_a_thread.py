"""A copied context has the same list, to which a thread adds while the main thread counts.

due: race
thing: trail or trails
"""

import contextvars
import threading

trails = contextvars.ContextVar("trails")
trails.set([])
context = contextvars.copy_context()


def step(place):
    trail = trails.get()
    trail.append(place)  # race: write


thread = threading.Thread(target=context.run, args=(step, "a"))
thread.start()
trail = trails.get()
print(len(trail) < 2)  # race: read
thread.join()
