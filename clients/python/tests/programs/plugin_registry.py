"""Plugins enter themselves into a dict of the class, each in a thread of its own.

due: race
thing: registry
"""

import threading

from itc_trace import shared


class Plugin:
    registry = shared({}, "registry")
    default = None

    @classmethod
    def register(cls, name):
        if "default" not in cls.registry:  # race: read
            cls.registry["default"] = name  # race: write


threads = [threading.Thread(target=Plugin.register, args=(name,)) for name in ("csv", "json")]
for thread in threads:
    thread.start()
for thread in threads:
    thread.join()
print(Plugin.registry["default"] in ("csv", "json"))
