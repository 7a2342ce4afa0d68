"""A dictionary whose attributes are its keys counts retries by them.

due: race
thing: Settings['retries']
"""

import threading


class Settings(dict):
    __getattr__ = dict.__getitem__
    __setattr__ = dict.__setitem__


settings = Settings(retries=0, host="localhost")


def retry():
    settings.retries += 1  # race: read, write
    return settings.host


threads = [threading.Thread(target=retry) for _ in range(2)]
for thread in threads:
    thread.start()
for thread in threads:
    thread.join()
print(settings.retries <= 2)
