"""The interval tree clock on plain trees, by its tables alone. An id is 0, 1 or a pair of ids. An event tree is a number, or a
number and two trees."""


def normal_id(left, right):
    return left if left == right and isinstance(left, int) else (left, right)


def split(part):
    """The two ids into which this one is divided."""
    if part == 0:
        return 0, 0
    if part == 1:
        return (1, 0), (0, 1)
    left, right = part
    if left == 0:
        one, other = split(right)
        return (0, one), (0, other)
    if right == 0:
        one, other = split(left)
        return (one, 0), (other, 0)
    return (left, 0), (0, right)


def sum_of(one, other):
    """The id that owns what either owns. No point is owned by both."""
    if one == 0:
        return other
    if other == 0:
        return one
    return normal_id(sum_of(one[0], other[0]), sum_of(one[1], other[1]))


def lifted(tree, by):
    return tree + by if isinstance(tree, int) else (tree[0] + by, tree[1], tree[2])


def least(tree):
    return tree if isinstance(tree, int) else tree[0] + min(least(tree[1]), least(tree[2]))


def greatest(tree):
    return tree if isinstance(tree, int) else tree[0] + max(greatest(tree[1]), greatest(tree[2]))


def normal(number, left, right):
    """The normal tree of a node with normal children."""
    if isinstance(left, int) and left == right:
        return number + left
    by = min(least(left), least(right))
    return number + by, lifted(left, -by), lifted(right, -by)


def normalized(tree):
    return tree if isinstance(tree, int) else normal(tree[0], normalized(tree[1]), normalized(tree[2]))


def opened(tree):
    """The tree as a node."""
    return (tree, 0, 0) if isinstance(tree, int) else tree


def join(one, other):
    """The tree that has the greater value at each point."""
    if isinstance(one, int) and isinstance(other, int):
        return max(one, other)
    low, high = sorted((opened(one), opened(other)), key=lambda node: node[0])
    left, right = (join(low[half], lifted(high[half], high[0] - low[0])) for half in (1, 2))
    return normal(low[0], left, right)


def fill(part, tree):
    if part == 0:
        return tree
    if part == 1:
        return greatest(tree)
    if isinstance(tree, int):
        return tree
    number, left, right = tree
    if part[0] == 1:
        right = fill(part[1], right)
        return normal(number, max(greatest(left), least(right)), right)
    if part[1] == 1:
        left = fill(part[0], left)
        return normal(number, left, max(greatest(right), least(left)))
    return normal(number, fill(part[0], left), fill(part[1], right))


def grow(part, tree):
    """A tree that is one greater somewhere in the part, and what that costs: expansions, and then steps."""
    if part == 1:
        return tree + 1, (0, 0)
    if isinstance(tree, int):
        grown, (expansions, steps) = grow(part, opened(tree))
        return grown, (expansions + 1, steps)
    number, left, right = tree
    by_left = grow(part[0], left) if part[0] != 0 else None
    by_right = grow(part[1], right) if part[1] != 0 else None
    if by_right is None or (by_left is not None and by_left[1] < by_right[1]):
        grown, (expansions, steps) = by_left
        return (number, grown, right), (expansions, steps + 1)
    grown, (expansions, steps) = by_right
    return (number, left, grown), (expansions, steps + 1)


def event(part, tree):
    """What a task that owns this part knows after one more event."""
    filled = fill(part, tree)
    return filled if filled != tree else normalized(grow(part, tree)[0])


def text_of(tree):
    """The text of an id or of an event tree."""
    return str(tree) if isinstance(tree, int) else "(" + ",".join(map(text_of, tree)) + ")"
