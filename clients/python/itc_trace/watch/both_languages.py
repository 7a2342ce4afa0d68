"""Numbers that the hooks in Python and those in C both know. The source in C is given them when it is built."""

from __future__ import annotations

NO_TOUCH, OF_FIELD, OF_SHAPE, OF_DICT, OF_LIST, OTHER, IF_OWN, OWN_OR_OF_CLASS, OF_STEPS, DEEP, LEFT = range(11)
"""What a place is to a type. What is DEEP has more inside that is looked at.

What is LEFT is left to Python, whoever refers to it.
"""
FIELD_IN_PLACE, DICT_IN_PLACE, LIST_IN_PLACE = range(11, 14)
"""The same of an assignment as `+=`, which may change a container in place that stands there."""

MOST_HELD = 20_000
LOOKED_THROUGH = 2
OLDEST = 2
"""The last generation of the collector of garbage."""
LOOKED_THROUGH_AT_ONCE = 64
SHORTENED_AT = 64
"""So many more stretches have touched an owner when it is tried to keep them in short."""
MOST_MADE = 50_000
MOST_BEGUN = 10_000
MOST_HANDED_OVER, DEEPEST_HANDED_OVER = 64, 8
"""So many objects are handed over with one at most, and those that are so deep inside."""


def header() -> str:
    """The numbers as a header of C."""
    return "".join(
        f"#define {name} {value}\n" for name, value in globals().items() if name.isupper() and type(value) is int
    )
