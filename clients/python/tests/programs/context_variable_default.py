"""A context variable has a mutable default, which all threads share.

due: race
thing: tags
"""

import contextvars
import threading

from itc_trace import shared

tags = contextvars.ContextVar("tags", default=shared({}, "tags"))


def label(name):
    tags.get()["owner"] = name  # race: write
    return tags.get()["owner"]  # race: read


threads = [threading.Thread(target=contextvars.copy_context().run, args=(label, name)) for name in ("a", "b")]
for thread in threads:
    thread.start()
for thread in threads:
    thread.join()
print(len(tags.get()))
