"""Options are updated while another thread unpacks them into a call.

due: race
thing: options
"""

import threading

options = {"width": 80}


def render(**words):
    return len(words)


def change():
    options.update(height=24)  # race: write


def draw():
    return render(**options)  # race: read


threads = [threading.Thread(target=change), threading.Thread(target=draw)]
for thread in threads:
    thread.start()
for thread in threads:
    thread.join()
print(draw())
