#!/usr/bin/env python3
"""Checks an export by the definitions alone, slowly: what `itc_trace check` is compared with.

It reads an export from standard input and prints `yes N` or `no LINE REASON`. Where Python's JSON takes more than there is
in JSON, or numbers of any size, the rules are put into it here.
"""
import itertools
import json
import math
import re
import sys

MOST_BYTES, MOST_EVENTS, MOST_JSON_LEVELS, MOST_STAMP_LEVELS, GREATEST_SUM = 65536, 16384, 127, 2048, 2 ** 63 - 1
MOST_TASKS, MOST_MESSAGES, VERSION = 2048, 16384, 2
KEYS = {"event", "kind", "name", "preds", "stamp", "task"}
HEADER_KEYS = {"events", "messages", "tasks", "tenant", "version"}
NAME = re.compile(r"[A-Za-z0-9_]{1,24}")
sys.setrecursionlimit(4 * MOST_STAMP_LEVELS)
sys.set_int_max_str_digits(0)


class Faulty(Exception):
    """A line is faulty, for this reason."""


class Members(list):
    """The members of an object as they stand, each with its key."""


def read_number(text):
    """A whole number of 64 bits without a sign is an int here, and any other a float, which may be too great for one."""
    if text.isdigit() and len(text) <= 20 and int(text) < 2 ** 64:
        return int(text)
    if math.isinf(float(text)):
        raise ValueError
    return float(text)


def refuse(word):
    raise ValueError(word)


def look_through(value, levels):
    """Refuses deeper nesting, and a surrogate that stands alone, also in a member that a later one of its key hides."""
    if isinstance(value, str):
        value.encode()
    if isinstance(value, list):
        if levels == 0:
            raise ValueError
        for part in itertools.chain(*value) if isinstance(value, Members) else value:
            look_through(part, levels - 1)


def read_json(line):
    try:
        value = json.loads(line.decode(), parse_int=read_number, parse_float=read_number, parse_constant=refuse,
                           object_pairs_hook=Members)
        look_through(value, MOST_JSON_LEVELS)
        return value
    except (ValueError, RecursionError):
        raise Faulty(1) from None


def is_name(value):
    return isinstance(value, str) and NAME.fullmatch(value) is not None


def is_listed(event, kind, name, preds, stamp, task):
    """Whether these values are of the right kinds."""
    is_named = name == "-" if kind in ("local", "end") else kind in ("spawn", "send", "recv", "join") and is_name(name)
    are_preds = type(preds) is list and len(preds) <= 2 and all(type(pred) is int for pred in preds)
    return type(event) is int and is_named and are_preds and isinstance(stamp, str) and is_name(task)


def read_part(text):
    """An id or an event tree: numbers, and lists for what stands in parentheses."""
    if re.fullmatch("[0-9(),]*", text) is None:
        raise ValueError
    return json.loads(text.replace("(", "[").replace(")", "]"))


def is_id(part, levels):
    if isinstance(part, int):
        return part <= 1
    return levels > 0 and len(part) == 2 and part not in ([0, 0], [1, 1]) and all(is_id(half, levels - 1) for half in part)


def least(tree):
    return tree if isinstance(tree, int) else tree[0] + min(least(tree[1]), least(tree[2]))


def is_tree(part, levels, above):
    """Whether the part is a normal tree. It stands below numbers of this sum."""
    if isinstance(part, int):
        return above + part <= GREATEST_SUM
    if levels == 0 or len(part) != 3 or not isinstance(part[0], int) or above + part[0] > GREATEST_SUM:
        return False
    number, left, right = part
    return (is_tree(left, levels - 1, above + number) and is_tree(right, levels - 1, above + number)
            and min(least(left), least(right)) == 0 and not (isinstance(left, int) and left == right))


def read_stamp(text):
    """The tree of the stamp."""
    try:
        id_text, tree_text = re.fullmatch(r"\[([^;]*);([^;]*)\]", text).groups()
        part, tree = read_part(id_text), read_part(tree_text)
    except (AttributeError, ValueError, RecursionError):
        raise Faulty(5) from None
    if not is_id(part, MOST_STAMP_LEVELS) or not is_tree(tree, MOST_STAMP_LEVELS, 0):
        raise Faulty(5)
    return tree


def read_line(line, number):
    """The event that the line lists, and its tree."""
    if len(line) > MOST_BYTES:
        raise Faulty(1)
    value = read_json(line)
    if not isinstance(value, Members) or set(dict(value)) != KEYS or not is_listed(**dict(value)):
        raise Faulty(2)
    event = dict(value)
    if event["event"] != number or number > MOST_EVENTS:
        raise Faulty(3)
    if not all(one < other for one, other in itertools.pairwise([0, *event["preds"], number])):
        raise Faulty(4)
    return event, read_stamp(event["stamp"])


def is_within(value, most):
    return type(value) is int and 1 <= value <= most


def read_header(line):
    """The header that the first line is, which has a version; None where it is none. A spoilt one is faulty."""
    if len(line) > MOST_BYTES:
        raise Faulty(1)
    value = read_json(line)
    if not isinstance(value, Members) or "version" not in dict(value):
        return None
    header = dict(value)
    if (set(header) != HEADER_KEYS or not is_within(header["events"], MOST_EVENTS)
            or not is_within(header["tasks"], MOST_TASKS) or not is_within(header["messages"], MOST_MESSAGES)
            or not is_name(header["tenant"]) or type(header["version"]) is not int or header["version"] != VERSION):
        raise Faulty(2)
    return header


def lines(data):
    *ended, rest = data.split(b"\n")
    return [line.removesuffix(b"\r") for line in ended] + [rest] * (rest != b"")


def points(tree, point=""):
    """A point in each part where the tree has one value, as halves, 0 for left. A point goes on with 0 for ever."""
    if isinstance(tree, int):
        return {point.rstrip("0")}
    return points(tree[1], point + "0") | points(tree[2], point + "1")


def value_at(tree, point):
    value = 0
    for half in itertools.chain(point, itertools.repeat("0")):
        if isinstance(tree, int):
            return value + tree
        value += tree[0]
        tree = tree[1 if half == "0" else 2]


def reaching(preds_of, event):
    """The events to which a walk along edges leads back from this one, and itself."""
    found, ahead = set(), [event]
    while ahead:
        event = ahead.pop()
        if event not in found:
            found.add(event)
            ahead += preds_of[event - 1]
    return found


def first_out_of_order(listed):
    """The first event whose tree does not compare with that of some earlier one as the edges say."""
    preds_of, trees = [event["preds"] for event, _ in listed], [tree for _, tree in listed]
    everywhere = list(set().union(*map(points, trees)))
    values = [[value_at(tree, point) for point in everywhere] for tree in trees]
    reached = [reaching(preds_of, event) for event in range(1, len(listed) + 1)]

    def compares(one, other):
        is_below = all(map(int.__le__, values[one - 1], values[other - 1]))
        return is_below == (one in reached[other - 1])

    for event in range(1, len(listed) + 1):
        if not all(compares(earlier, event) and compares(event, earlier) for earlier in range(1, event)):
            return event
    return None


def listed_in(data):
    """The header if there is one, and what the lines list up to the first that is faulty by itself; and what is answered then."""
    header, listed = None, []
    for number, line in enumerate(lines(data), 1):
        try:
            if number == 1:
                header = read_header(line)
            if number > 1 or header is None:
                listed.append(read_line(line, len(listed) + 1))
        except Faulty as faulty:
            return header, listed, f"no {number} {faulty}"
    return header, listed, None


def verdict(data):
    header, listed, fault = listed_in(data)
    event = first_out_of_order(listed)
    ahead = 0 if header is None else 1
    return f"no {ahead + event} 6" if event else fault or f"yes {len(listed)}"


if __name__ == "__main__":
    print(verdict(sys.stdin.buffer.read()))
