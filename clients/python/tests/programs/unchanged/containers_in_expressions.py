"""One thread fills containers, while another one uses all of each: in texts, operators, arguments and comparisons.

due: race
thing: lines or names or rates
"""

import functools
import operator
import threading

lines, names, rates = ["a"], {"ann"}, {"usd": 1}


def fill():
    lines.append("b")  # race: write
    names.add("bob")  # race: write
    rates["eur"] = 2  # race: write


def look():
    told = [
        ",".join(lines),  # race: read
        "%s" % lines,  # race: read
        "{}".format(lines),  # race: read
        lines + ["z"],  # race: read
        lines == ["a"],  # race: read
        functools.reduce(operator.add, lines),  # race: read
        names | {"eve"},  # race: read
        {"eve"}.union(names),  # race: read
        {**rates},  # race: read
    ]
    told.extend(lines)  # race: read
    more = {}
    more.update(rates)  # race: read
    return told, more


threads = [threading.Thread(target=fill), threading.Thread(target=look)]
for thread in threads:
    thread.start()
for thread in threads:
    thread.join()
