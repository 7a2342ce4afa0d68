"""A sort divides its list, sorts one half in a thread, and merges both once the thread is joined.

due: none
"""

import threading


def sort(numbers, depth=2):
    if len(numbers) < 2:
        return numbers
    middle = len(numbers) // 2
    halves = [numbers[:middle], numbers[middle:]]
    if depth:
        def sort_left():
            halves[0] = sort(halves[0], depth - 1)

        thread = threading.Thread(target=sort_left)
        thread.start()
        halves[1] = sort(halves[1], depth - 1)
        thread.join()
    else:
        halves = [sort(half, 0) for half in halves]
    left, right = halves
    merged = []
    while left and right:
        merged.append((left if left[0] <= right[0] else right).pop(0))
    return merged + left + right


print(sort([5, 2, 9, 1, 7, 3, 8, 4]))
