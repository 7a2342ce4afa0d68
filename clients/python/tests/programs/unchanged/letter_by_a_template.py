"""A letter has the names of all guests, while one more is invited.

due: race
thing: names
"""

import string
import threading

names = ["ann"]
letter = string.Template("Dear $who")
letters = []


def invite(name):
    names.append(name)  # race: write


def write():
    letters.append(letter.substitute(who=names))  # race: read


threads = [threading.Thread(target=invite, args=("bob",)), threading.Thread(target=write)]
for thread in threads:
    thread.start()
for thread in threads:
    thread.join()
print(len(letters))
