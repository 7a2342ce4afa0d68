"""Two threads want a cached property at once: it is computed under the lock of `functools`.

due: none
thing: model
"""

import functools
import sys
import threading
import time

from itc_trace import touch


class Service:
    def __init__(self):
        self.lock = threading.Lock()

    @functools.cached_property
    def model(self):
        time.sleep(0.05)
        touch("model", write=True)
        return {"weights": [1, 2]}

    def predict(self):
        if sys.version_info >= (3, 12):  # Since then it has no lock of its own.
            with self.lock:
                return self._predict()
        return self._predict()

    def _predict(self):
        model = self.model
        touch("model")
        return sum(model["weights"])


service = Service()
threads = [threading.Thread(target=service.predict) for _ in range(2)]
for thread in threads:
    thread.start()
for thread in threads:
    thread.join()
print(service.predict())
