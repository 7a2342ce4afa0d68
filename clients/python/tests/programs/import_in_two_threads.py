"""Two threads import a module at its first use: Python's own lock lets only one of them run it.

due: none
thing: settings
uses: _settings.py
"""

import threading


def use():
    import _settings
    _settings.read()


threads = [threading.Thread(target=use) for _ in range(2)]
for thread in threads:
    thread.start()
for thread in threads:
    thread.join()
print("read")
