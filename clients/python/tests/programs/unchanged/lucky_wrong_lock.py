"""The reader holds another lock than the writer, and a third one happens to order them.

due: possible
thing: temperature
"""

import threading

import _baton

temperature = 20
writing, reading, printing = threading.Lock(), threading.Lock(), threading.Lock()


def say(text):
    with printing:
        print(text)


def heat():
    global temperature
    with writing:
        temperature = 25  # race: write
    say("heated")
    _baton.hand_on()


def watch():
    _baton.wait()
    say("watched")
    with reading:
        return temperature  # race: read


threads = [threading.Thread(target=heat), threading.Thread(target=watch)]
for thread in threads:
    thread.start()
for thread in threads:
    thread.join()
