"""Exports that are made to break a reader, each with what a check answers: lines with odd values, odd lines, odd headers."""
import json

# The header of a tenant `x` with the usual limits.
HEADER = {"events": 4096, "messages": 2048, "tasks": 512, "tenant": "x", "version": 2}

GREATEST = 2 ** 63 - 1
HIDDEN = "[" * 125 + "]" * 125
LONE = [r"\ud800", r"\udfff", r"\ud83dx", r"\ud83d\\ude00", r"\ude00\ud83d", r"\ud83d\u0061", r"\uD83D\uD83D"]

# Values of a member in the second of two lines, in JSON, and the reason for which that line is refused; 0 where it is right.
MEMBERS = [
    ("event", 0, ["2 ", "\t2", r'1,"event":2', r'null,"\u0065vent":2', f'[{HIDDEN}],"event":2', r'"\ud83d\ude00","event":2',
                  '1e-999999999,"event":2', '{"event":1},"event":2', f'0.{"3" * 60000},"event":2']),
    ("event", 1, ["", "02", "-02", "+2", "2.", ".2", "2e", "2.e0", "0x2", "2 2", "--2", "NaN", "-Infinity", "nul", "1e400",
                  "\0", "2,", '1e400,"event":2', 'nul,"event":2', f'[[{HIDDEN}]],"event":2',
                  *(f'"{text}","event":2' for text in LONE)]),
    ("event", 2, ["2.0", "2e0", "1e3", "20e-1", "-0", "-2", "18446744073709551616", "1e308", "null", "true", '"2"', "[2]", "{}",
                  '2,"event":null', '2,"more":2', '2,"Event":2', '2,"":2', r'2,"event\u0000":2']),
    ("event", 3, ["0", "1", "3", "16384", "16385", "4294967298", "18446744073709551615", r'2,"\u0065vent":1']),
    ("kind", 0, [r'"\u006cocal"', '"end"']),
    ("kind", 1, ["local", "'local'", '"local', r'"local\"', r'"\local"', '"lo\tcal"', *(f'"{text}"' for text in LONE)]),
    ("kind", 2, ['""', '"Local"', '"local "', '"loca"', '"locals"', r'"local\u0000"', "null", "1", '["local"]', '"spawn"',
                 '"recv"']),
    ("name", 1, ["-", '"-', r'"\u002"', r'"\x2d"', *(f'"{text}"' for text in LONE)]),
    ("name", 2, ['""', '"--"', '"root"', "null", "1", "[]"]),
    ("preds", 0, ["[ 1 ]", '[2],"preds":[1]']),
    ("preds", 1, ["[1,]", "[,1]", "[01]", "[1", "1]", "[1;1]", "[1.]", "[1 1]"]),
    ("preds", 2, ["null", "1", '"1"', "{}", '{"0":1}', "[null]", '["1"]', "[[1]]", "[1.0]", "[1e0]", "[-0]", "[-1]", "[0,1,1]",
                  "[1,18446744073709551616]"]),
    ("preds", 4, ["[0]", "[2]", "[3]", "[1,1]", "[0,1]", "[1,2]", "[2,1]", "[16384]", "[18446744073709551615]"]),
    ("preds", 6, ["[]"]),
    ("stamp", 0, ['"[0;2]"', '"[(0,1);2]"', '"[1;(1,0,1)]"', r'"[1;\u0032]"', f'"[1;{GREATEST}]"',
                  f'"[1;({GREATEST - 1},0,1)]"', f'"[1;(1,{GREATEST - 1},0)]"']),
    ("stamp", 1, ['"[1;2', "[1;2]", *(f'"[1;2]{text}"' for text in LONE)]),
    ("stamp", 2, ["null", "2", "[1,2]", '["[1;2]"]']),
    ("stamp", 5, [f'"{text}"' for text in (
        "", "[]", "[;]", "[1]", "[1;]", "[;2]", "1;2", "(1;2)", "[1;2", "1;2]", "[1;2]]", "[[1;2]]", "[1;2;2]", "[1,2]",
        " [1;2]", "[1;2] ", "[1; 2]", "[2;2]", "[-1;2]", "[01;2]", "[1;02]", "[1;-2]", "[1;+2]", "[1;2.0]", "[1;2e0]", "[1;a]",
        r"[1;2\u0000]", "[1;\u0662]", r"\ud83d\ude00", "[(1);2]", "[(1,0,0);2]", "[(1,1);2]", "[(0,0);2]", "[((0,0),1);2]",
        "[(1,0;2]", "[1,0);2]", "[1;(2,0)]", "[1;(2,0,1,0)]", "[1;(2,0,0)]", "[1;(1,1,1)]", "[1;(0,2,3)]", "[1;(1,0,(1,1,1))]",
        "[1;((1,0,1),0,1)]", f"[1;{GREATEST + 1}]", f"[1;({GREATEST},0,1)]", f"[1;({GREATEST + 1},0,1)]",
        f"[1;(1,{GREATEST},0)]", "[1;18446744073709551617]", f"[1;{'9' * 60000}]")]),
    ("stamp", 6, ['"[1;1]"', '"[1;0]"', '"[1;(0,0,9)]"']),
    ("task", 0, [r'"\u0072oot"', f'"{"a" * 24}"', '"_"', '"0"']),
    ("task", 1, ["root", '"ro\0ot"', '"ro\x1fot"', '"root', *(f'"{text}"' for text in LONE)]),
    ("task", 2, ['""', '"-"', '"a b"', f'"{"a" * 25}"', r'"\u0000"', r'"\ud83d\ude00"', '"r\u00f6\u00f6t"', '"\x7f"', "null",
                 "0", '["root"]']),
]

# Values of a member in the header, in the same way.
HEADER_MEMBERS = [
    ("events", 0, ["1", "16384", " 4096 ", r'0,"events":4096', r'null,"\u0065vents":1']),
    ("events", 1, ["", "04096", "+1", "4096.", "NaN", "1 1"]),
    ("events", 2, ["0", "16385", "-1", "-0", "4096.0", "1e3", "1e308", "null", "true", '"4096"', "[4096]", "{}",
                   "18446744073709551617", '4096,"Events":1', '4096,"event":1', '4096,"more":null']),
    ("messages", 0, ["1", "16384"]),
    ("messages", 2, ["0", "16385", "-1", "2048.0", "null", '"2048"', "[]", "18446744073709551617"]),
    ("tasks", 0, ["1", "2048"]),
    ("tasks", 2, ["0", "2049", "16384", "-1", "512.0", "null", '"512"', "[]", "18446744073709551617"]),
    ("tenant", 0, [r'"\u0078"', f'"{"a" * 24}"', '"_"', '"0"', '"root"']),
    ("tenant", 1, ["x", '"x', '"x\0"', *(f'"{text}"' for text in LONE)]),
    ("tenant", 2, ['""', '"-"', '"a b"', f'"{"a" * 25}"', r'"\u0000"', "null", "0", '["x"]']),
    ("version", 0, ["2 ", '1,"version":2', '{"version":3},"version":2']),
    ("version", 1, ["02", "2.", "+2", "", "two"]),
    ("version", 2, ["1", "3", "0", "-2", "2.0", "2e0", "20e-1", '"2"', "null", "true", "[2]", "18446744073709551618",
                    '2,"version":3', '2,"version":null']),
]

# Second lines, each with the reason for which it is refused.
LINES = [
    (1, b""), (1, b" "), (1, b"\r"), (1, b"\0"), (1, b"\0" * 65536), (1, b"\xff"), (1, b"\xef\xbb\xbf{}"),
    (1, b"\xfe\xff\0{\0}"), (1, b"{}{}"), (1, b"{},"), (1, b"{} //"), (1, b"/**/{}"), (1, b"{'a':1}"), (1, b"{a:1}"),
    (1, b'{"a"}'), (1, b'{"a":1,}'), (1, b'{"a" 1}'), (1, b"\x0b{}"), (1, b"{}\x0c"), (1, b"\xc2\xa0{}"), (1, b"{}\0"),
    (1, b"]"), (1, b"["), (1, b"[" * 65536), (1, b'{"a":' * 13107), (1, b"[" * 128 + b"]" * 128),
    (1, b'{"a":' * 127 + b"[" + b"]" + b"}" * 127), (1, b'["\xff"]'), (1, b'["\xc0\x80"]'), (1, b'["\xed\xa0\x80"]'),
    (1, b'["\xed\xa0\xbd\xed\xb8\x80"]'), (1, b'["\xf4\x90\x80\x80"]'), (1, b'["\xe2\x82"]'), (1, b'["\x80"]'),
    (1, b'["\xf8\x88\x80\x80\x80"]'), (1, b'{"\xff":1}'), (1, rb'{"\ud800":1}'), (2, b"{}"), (2, b"[]"), (2, b"null"),
    (2, b"2"), (2, b'"yes 2"'), (2, b"1e308"), (2, b"[" * 127 + b"]" * 127), (2, b'{"a":' * 127 + b"1" + b"}" * 127),
    (2, b'["\xf0\x9f\x98\x80"]'), (2, b'{"event":2,"event":2,"event":2,"event":2,"event":2,"event":2}'),
]


def line(number, /, **members):
    """The line of an event of one task, with these values in JSON in place of its own. A member of none is left out."""
    edges = [number - 1] if number > 1 else []
    own = {"event": number, "kind": '"local"', "name": '"-"', "preds": edges, "stamp": f'"[1;{number}]"', "task": '"root"'}
    listed = (f'"{key}":{value}' for key, value in {**own, **members}.items() if value is not None)
    return ("{" + ",".join(listed) + "}").encode()


def made_up():
    """Whole exports that are made to break a checker, each with what is answered."""
    one, two, three = map(line, (1, 2, 3))
    for member, reason, values in MEMBERS:
        for value in values:
            yield one + b"\n" + line(2, **{member: value}) + b"\n", f"no 2 {reason}" if reason else "yes 2"
    for reason, second in LINES:
        yield one + b"\n" + second + b"\n" + three + b"\n", f"no 2 {reason}"
        yield second + b"\n", f"no 1 {reason}"
    for member in ("event", "kind", "name", "preds", "stamp", "task"):
        yield line(1, **{member: None}), "no 1 2"
    for export, answer in (
        ([one, two, b""], "yes 2"), ([one, two], "yes 2"), ([one + b"\r", two + b"\r", b""], "yes 2"),
        ([one, two + b"\r"], "yes 2"), ([one + b"\r\r", two + b"\r\r\r"], "yes 2"), ([one, two, b"", b""], "no 3 1"),
        ([one, two, b"\r", b""], "no 3 1"), ([one, two, b"\r"], "no 3 1"), ([one + b"\r" + two], "no 1 1"),
        ([one + two], "no 1 1"), ([one, b"", two], "no 2 1"), ([b"", one], "no 1 1"), ([b""], "yes 0"), ([b"", b""], "no 1 1"),
        ([b"\r", b""], "no 1 1"), ([b"\r"], "no 1 1"), ([b"\xef\xbb\xbf" + one, two], "no 1 1"), ([one, one], "no 2 3"),
        ([one, one, two], "no 2 3"), ([two, one], "no 1 3"), ([one, three], "no 2 3"), ([one, two, two], "no 3 3"),
        ([one, two, line(3, preds=[1])], "no 3 6"), ([one, two, line(3, preds=[1, 2])], "yes 3"),
        ([one, line(2, stamp='"[1;2]"', preds=[]), three], "no 2 6"),
        ([line(1, stamp='"[1;(0,0,1)]"'), line(2, stamp='"[1;(0,1,0)]"', preds=[])], "yes 2"),
        ([line(1, stamp='"[1;(0,0,1)]"'), line(2, stamp='"[1;(0,1,0)]"')], "no 2 6"),
        ([line(1, stamp='"[1;2]"', task='"\0"'), two], "no 1 1"), ([line(1, event=2, preds=[1], stamp='"[1;x]"')], "no 1 3"),
        ([line(1, preds=[1], stamp='"[1;x]"')], "no 1 4"), ([one, line(2, preds=[2], stamp='"[1;1]"')], "no 2 4"),
        (["\n".join(part.decode() for part in (one, two)).encode("utf-16")], "no 1 1"),
    ):
        yield b"\n".join(export), answer


def header(**members):
    """The header, with these values in JSON in place of its own. A member of none is left out."""
    own = {key: json.dumps(value) for key, value in HEADER.items()}
    return ("{" + ",".join(f'"{key}":{value}' for key, value in {**own, **members}.items() if value is not None) + "}").encode()


def made_up_headers():
    """Whole exports with a header, or with what is nearly one, each with what is answered."""
    one, two, three = map(line, (1, 2, 3))
    for member, reason, values in HEADER_MEMBERS:
        for value in values:
            yield header(**{member: value}) + b"\n" + one + b"\n", f"no 1 {reason}" if reason else "yes 1"
    for member in HEADER:
        yield header(**{member: None}) + b"\n" + one + b"\n", "no 1 2"
    backwards = json.dumps(dict(reversed(HEADER.items())), indent=None, separators=(" , ", "\t:\t")).encode()
    long = header() + b" " * (65536 - len(header()))
    for export, answer in (
        ([header()], "yes 0"), ([header(), b""], "yes 0"), ([header(), one, two, b""], "yes 2"), ([header() + b"\r", one], "yes 1"),
        ([backwards, one], "yes 1"), ([long, one], "yes 1"), ([long + b" ", one], "no 1 1"), ([long + b"\r", one, b""], "yes 1"),
        ([header(), header()], "no 2 2"), ([header(), header(), one], "no 2 2"), ([one, header()], "no 2 2"),
        ([one, header(), two], "no 2 2"), ([header(), one, header(), two], "no 3 2"), ([header(), two, three], "no 2 3"),
        ([header(), line(2, preds=[1]), three], "no 2 3"), ([header(), b"", one], "no 2 1"), ([b"", header(), one], "no 1 1"),
        ([header() + one], "no 1 1"), ([b"[" + header() + b"]", one], "no 1 2"), ([b'{"version":2}', one], "no 1 2"),
        ([line(1, version="2"), two], "no 1 2"), ([header(version="3"), line(1, stamp='"x"')], "no 1 2"),
        ([header(events="1"), one, two], "yes 2"), ([header(tasks="1"), one, two], "yes 2"),
    ):
        yield b"\n".join(export), answer
