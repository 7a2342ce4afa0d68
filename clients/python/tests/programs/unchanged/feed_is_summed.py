"""One thread goes through a list that another one appends to.

due: race
thing: readings
"""

import threading

readings = [20, 21]


def measure():
    for value in (22, 23):
        readings.append(value)  # race: write


def average():
    total = 0
    for value in readings:  # race: read
        total += value
    return total


sensor = threading.Thread(target=measure)
display = threading.Thread(target=average)
sensor.start()
display.start()
sensor.join()
display.join()
print(average())
