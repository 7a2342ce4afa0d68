"""A class of the program's own wraps a lock and is used by `with`.

due: none
thing: register
"""

import threading

from itc_trace import shared


class Guard:
    def __init__(self):
        self._inner = threading.Lock()
        self.entered = 0

    def __enter__(self):
        self._inner.acquire()
        self.entered += 1
        return self

    def __exit__(self, *error):
        self._inner.release()


class Register(Guard):
    def __init__(self):
        super().__init__()
        self.values = shared({}, "register")

    def put(self, key, value):
        with self:
            self.values[key] = value


register = Register()
threads = [threading.Thread(target=register.put, args=("key", value)) for value in range(3)]
for thread in threads:
    thread.start()
for thread in threads:
    thread.join()
with register:
    print(len(register.values), register.entered)
