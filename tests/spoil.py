#!/usr/bin/env python3
"""Changes a good export in one place: `spoil.py SEED` reads it from standard input and writes the changed one.

With the same seed it makes the same change: to one byte, key, value, number, edge or stamp, to two of them in one line, to
how JSON is laid out, or to its header; now and then to nothing. Some changes leave an export that is good. Some leave stamps
and edges that agree, but not with what a tenant could have reported: another name, another place in the order, another id.
"""
import json
import random
import re
import sys

HEADER = '{"events":4096,"messages":2048,"tasks":512,"tenant":"x","version":2}'
BYTES = b'0123456789,;:()[]{}"\\-+.eEtnu_a \t\r\n\x00\x1f\x7f\x80\xc3\xff'
NUMBERS = ["0", "-0", "-1", "1.0", "1e0", "01", "16384", "16385", "18446744073709551615", "18446744073709551616",
           "9223372036854775807", "9223372036854775808", "1e400", "1" + "0" * 400, "NaN", "Infinity"]
TEXTS = ["", "-", "root", "local", "spawn", "a-b", "a" * 24, "a" * 25, "[1;1]", "[(1,0);(1,0,1)]", "\u00e9",
         r"\u0061", r"\ud800", r"\ud83d\ude00"]
OTHERS = ["null", "true", "{}", "[]", "[0]", "[1]", "[1,1]", "[1,2,3]", '["1"]',
          *("[" * levels + "]" * levels for levels in (126, 127, 1000, 20000))]
VALUES = [*NUMBERS, *(f'"{text}"' for text in TEXTS), *OTHERS]
WORDS = ["local", "spawn", "send", "recv", "end", "join", "-", "root", "task_1", "Local", "", "a b", "a" * 24, "a" * 25]
IDS = ["0", "1", "(1,0)", "(0,1)", "((1,0),0)", "((0,1),0)", "(0,(0,1))", "((1,0),(1,0))"]
STAMPS = ["1;(1,0,0)", "1;(0,1,2)", "(1,1);1", "0;1", "1;9223372036854775807", "1;9223372036854775808",
          "1;(1,0,9223372036854775806)", "1;(1,0,9223372036854775807)", "1;(9223372036854775808,0,1)", "1;01",
          f"1;{'(0,0,' * 2049}1{')' * 2049}", *(f"{'(0,' * levels}1{')' * levels};1" for levels in (1, 2048, 2049))]


def members_of(line):
    """The members of the line, each as its key and its value in JSON."""
    return [[json.dumps(key), json.dumps(value, separators=(",", ":"))] for key, value in json.loads(line).items()]


def line_of(members, colon=":", comma=","):
    return "{" + comma.join(key + colon + value for key, value in members) + "}"


def lines_of(export):
    """The lines, and how many of them come before those of events."""
    lines = export.decode().splitlines()
    return lines, int(lines[0].startswith('{"events"'))


def text_of(lines):
    return "".join(line + "\n" for line in lines).encode()


def at_some_line(change):
    """The change of a list of members, as one of a whole export."""
    def change_export(export, choose):
        lines, ahead = lines_of(export)
        place = choose.randrange(ahead, len(lines))
        members = members_of(lines[place])
        lines[place] = change(members, choose, place - ahead + 1) or line_of(members)
        return text_of(lines)
    return change_export


def at_header(change):
    """The change of the members of a header, as one of a whole export. An export without one gets one first."""
    def change_export(export, choose):
        lines, ahead = lines_of(export)
        header = lines[0] if ahead else HEADER
        members = members_of(header)
        return text_of([change(members, choose) or line_of(members), *lines[ahead:]])
    return change_export


def nothing(export, choose):
    return export


def some_byte(export, choose):
    place = choose.randrange(len(export))
    new = bytes([choose.choice(BYTES)])
    rest = export[place + choose.randrange(2):]
    return export[:place] + choose.choice([b"", new, new]) + rest


def some_end(export, choose):
    """Another end of a line, or of all of them; or fewer lines."""
    some_line = choose.randrange(export.count(b"\n"))
    front = b"\n".join(export.split(b"\n")[:some_line])
    return choose.choice([export.replace(b"\n", b"\r\n"), export[:-1], export + b"\r", export + b"\n", front, front + b"\n"])


def some_key(members, choose, number):
    """A key less, one more, one twice, or another one."""
    place = choose.randrange(6)
    key, value = members[place]
    again = [key, choose.choice(VALUES)]
    before, after = members[:place], members[place + 1:]
    another = choose.choice([key.upper(), key[:-2] + '"', choose.choice(members)[0], r'"\u0073tamp"'])
    more = [[*members, again], [again, *members], [*members, ['"more"', value]]]
    members[:] = choose.choice([before + after, *more, [*before, [another, value], *after]])


def some_header_key(members, choose):
    """A key of the header less, one more, one twice, or another one."""
    place = choose.randrange(len(members))
    key, value = members[place]
    before, after = members[:place], members[place + 1:]
    another = choose.choice([key.upper(), key[:-2] + '"', choose.choice(members)[0], r'"\u0074enant"', '"event"'])
    again = [key, choose.choice([value, *VALUES])]
    members[:] = choose.choice([before + after, [*members, again], [again, *members], [*members, ['"more"', value]],
                                [*before, [another, value], *after]])


def some_header_value(members, choose):
    choose.choice(members)[1] = choose.choice(VALUES)


def some_limit(members, choose):
    """A limit at or outside its range."""
    choose.choice(members[:3])[1] = choose.choice(["0", "1", "2048", "2049", "16384", "16385", "-1", "1.0", '"1"', "65536"])


def some_version(members, choose):
    members[4][1] = choose.choice(["0", "1", "2", "3", "2.0", "2e0", '"2"', "null", "-2", "18446744073709551616"])


def some_tenant(members, choose):
    members[3][1] = json.dumps(choose.choice(WORDS))


def header_layout(members, choose):
    return layout(members, choose, 1)


def some_headers(export, choose):
    """No header, one more, or one in another place; or a header alone."""
    lines, ahead = lines_of(export)
    header = lines[0] if ahead else HEADER
    place = choose.randrange(len(lines) + 1)
    return text_of(choose.choice([lines[ahead:], [header, *lines], [*lines[:place], header, *lines[place:]], [header],
                                  [*lines[ahead:], header], [lines[-1], *lines[:-1]]]))


def some_value(members, choose, number):
    choose.choice(members)[1] = choose.choice(VALUES)


def some_word(members, choose, number):
    """The kind, the name or the task is another."""
    choose.choice([members[1], members[2], members[5]])[1] = json.dumps(choose.choice(WORDS))


def some_number(members, choose, number):
    """A number of the line, mostly one of its stamp, is another."""
    member = choose.choice([members[0], members[3], members[4], members[4], members[4], members[4]])
    parts = re.split("([0-9]+)", member[1])
    if len(parts) > 1:
        place = choose.randrange(1, len(parts), 2)
        near = [str(max(0, int(parts[place]) + by)) for by in (-2, -1, 1, 2)]
        parts[place] = choose.choice([*near, *near, choose.choice(NUMBERS)])
        member[1] = "".join(parts)


def some_edge(members, choose, number):
    """One edge more, one less or another one; or the edges stand in another order."""
    preds = json.loads(members[3][1])
    one = choose.randrange(1, number + 1)
    less = preds[:-1] if choose.randrange(2) else preds[1:]
    others = [sorted({*preds, one}), sorted({*less, one}), less, preds[::-1], [*preds, *preds], [*preds, one]]
    members[3][1] = json.dumps(choose.choice(others))


def some_stamp(members, choose, number):
    members[4][1] = f'"[{choose.choice(STAMPS)}]"'


def some_event(members, choose, number):
    members[0][1] = str(number + choose.choice([-1, 1, number]))


def two_at_once(members, choose, number):
    """Two changes of one line, of which the least reason is to be told."""
    for change in choose.sample([some_event, some_edge, some_stamp], 2):
        change(members, choose, number)


def layout(members, choose, number):
    """The same, or not quite: with blanks, with other keys first, or as long as a line may be."""
    choose.shuffle(members)
    blank = choose.choice(["", " ", "\t ", "\r", "\x0c"])
    line = line_of(members, colon=blank + ":" + blank, comma=blank + "," + blank)
    length = choose.choice([0, 0, 65535, 65536, 65537])
    return blank + line + blank + " " * (length - len(line) - 2 * len(blank)) + choose.choice(["", "", "\r", "\r\r"])


def at_events(change):
    """The change of the list of events, as one of a whole export."""
    def change_export(export, choose):
        lines, ahead = lines_of(export)
        events = [json.loads(line) for line in lines[ahead:]]
        return text_of(lines[:ahead] + [json.dumps(event, separators=(",", ":")) for event in change(events, choose)])
    return change_export


def renumbered(events, number_of):
    """The events with other numbers, by the old ones, in their order. An edge from an event without a number is lost."""
    for event in events:
        event["event"] = number_of[event["event"]]
        event["preds"] = sorted(number_of[pred] for pred in event["preds"] if pred in number_of)
    return sorted(events, key=lambda event: event["event"])


def one_event_less(events, choose):
    less = choose.randrange(len(events))
    left = events[:less] + events[less + 1:]
    return renumbered(left, {event["event"]: number for number, event in enumerate(left, 1)})


def two_exchanged(events, choose):
    """Two events that follow each other in the list are exchanged. A tenant may have reported them so, if the second did not follow
    the first."""
    first = choose.randrange(1, len(events))
    numbers = {number: number for number in range(1, len(events) + 1)}
    return renumbered(events, numbers | {first: first + 1, first + 1: first})


def some_name_from(events, choose):
    """A task or a message has another name, from some event on or in all of them."""
    names = sorted({event[key] for event in events for key in ("name", "task")} - {"-"})
    old, new = choose.choice(names), choose.choice([*names, "other", "a" * 24])
    since = choose.choice([0, 0, choose.randrange(len(events))])
    for event in events[since:]:
        event.update({key: new for key in ("name", "task") if event[key] == old})
    return events


def all_greater(events, choose):
    """Each tree is greater by one."""
    for event in events:
        part, tree = event["stamp"].split(";")
        event["stamp"] = part + ";" + re.sub("[0-9]+", lambda root: str(int(root[0]) + 1), tree, count=1)
    return events


def mirrored(part):
    return part if isinstance(part, int) else [*part[:-2], mirrored(part[-1]), mirrored(part[-2])]


def all_mirrored(events, choose):
    """In each stamp the left half is the right one."""
    for event in events:
        parts = [json.loads(part.replace("(", "[").replace(")", "]")) for part in event["stamp"][1:-1].split(";")]
        text = ";".join(json.dumps(mirrored(part), separators=(",", ":")) for part in parts)
        event["stamp"] = "[" + text.replace("[", "(").replace("]", ")") + "]"
    return events


def some_id(events, choose):
    event = choose.choice(events)
    event["stamp"] = f'[{choose.choice(IDS)};{event["stamp"].split(";")[1]}'
    return events


def some_limit_of_the_trace(export, choose):
    """A limit is what the trace needs, or one less."""
    lines, ahead = lines_of(export)
    kinds = [json.loads(line)["kind"] for line in lines[ahead:]]
    needed = {"events": len(kinds), "messages": kinds.count("send"), "tasks": 1 + kinds.count("spawn")}
    key = choose.choice(sorted(needed))
    header = json.loads(lines[0] if ahead else HEADER) | {key: max(1, needed[key] - choose.randrange(2))}
    return text_of([json.dumps(header, separators=(",", ":")), *lines[ahead:]])


CHANGES = [nothing, some_byte, some_byte, some_end,
           *map(at_some_line, [some_key, some_value, some_word, some_number, some_number, some_edge, some_edge, some_stamp,
                               two_at_once, layout]),
           some_headers, *map(at_header, [some_header_key, some_header_value, some_limit, some_version, some_tenant,
                                          header_layout]),
           some_limit_of_the_trace, some_limit_of_the_trace,
           *map(at_events, [one_event_less, two_exchanged, two_exchanged, some_name_from, some_name_from, all_greater, all_mirrored,
                            some_id, some_id])]


def spoiled(export, choose):
    return choose.choice(CHANGES)(export, choose)


if __name__ == "__main__":
    sys.stdout.buffer.write(spoiled(sys.stdin.buffer.read(), random.Random(int(sys.argv[1]))))
