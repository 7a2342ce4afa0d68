"""A cache is a subclass of dict with a method that loads what is missing.

due: race
thing: Images or images
"""

import threading


class Images(dict):
    def __missing__(self, name):
        self[name] = f"<{name}>"  # race: write
        return self[name]  # also: read

    def names(self):
        return sorted(self)  # race: read


images = Images()
threads = [threading.Thread(target=images.__getitem__, args=("logo",)), threading.Thread(target=images.names)]
for thread in threads:
    thread.start()
for thread in threads:
    thread.join()
print(images.names())
