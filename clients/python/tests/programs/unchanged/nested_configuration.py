"""One thread switches a setting deep in an application, and another reads it.

due: race
thing: settings['debug']
"""

import threading


class Configuration:
    def __init__(self):
        self.settings = {"debug": False, "port": 80}


class Application:
    def __init__(self):
        self.configuration = Configuration()

    def enable(self):
        self.configuration.settings["debug"] = True  # race: write

    def banner(self):
        return "debug" if self.configuration.settings["debug"] else "live"  # race: read


application = Application()
threads = [threading.Thread(target=application.enable), threading.Thread(target=application.banner)]
for thread in threads:
    thread.start()
for thread in threads:
    thread.join()
print(application.banner())
