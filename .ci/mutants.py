"""How mutants are read, and what they change: the edits that the prover must refuse.

They stand in each crate's must-fail, and in .ci/further-edits.
"""
import collections
import glob
import hashlib
import os
import re

TOP = os.path.dirname(os.path.dirname(os.path.abspath(__file__)))
MARKS = ("file: ", "old: ", "new:", "#", "--", "//")
IMPL = re.compile(r"impl(?:<.*?>)? (?:(?P<of>[\w:]+(?:<.*>)?) for )?(?P<type>[\w:]+)")
HEAD = re.compile(r"( *)(?:pub(?:\([\w: ]+\))? )?(?:const |unsafe )*fn (\w+)")

# A function of a source: its name as the toolchain prints it, without the crate, and the first and the last line of its
# body, counted from 0.
Function = collections.namedtuple("Function", "name first last")


class Wrong(Exception):
    """Why an edit does not apply."""


def text_of(path):
    with open(path, encoding="utf-8") as file:
        return file.read()


def edits(top=TOP):
    """Each edit of a checkout, with its crate."""
    for pattern, part in (("crates/*/must-fail/*", 1), (".ci/further-edits/*/*", 2)):
        for path in sorted(glob.glob(os.path.join(glob.escape(top), pattern))):
            yield os.path.relpath(path, top).split("/")[part], path


def digest_of(path):
    """The first digits of the SHA-256 of an edit's text, by which .ci/tried knows it."""
    return hashlib.sha256(text_of(path).encode()).hexdigest()[:12]


def file_named(folder, name):
    """The path of the file of a crate's folder that an edit names."""
    path = os.path.join(folder, name)
    is_inside = os.path.normpath(name) == name and name.split("/")[0] in ("src", "specs", "proofs")
    if not is_inside or not os.path.isfile(path):
        raise Wrong(f"there is no file {name}")
    return path


def replaced(text, old, new, name):
    if text.count(old) != 1:
        raise Wrong(f"a text stands in {name} {text.count(old)} times: {old[:80]}")
    return text.replace(old, new)


def applied(folder, edit):
    """The texts of the files that an edit changes in a crate's folder, by name: as they are, and behind its pairs."""
    was, texts, name, old = {}, {}, None, None
    for line in text_of(edit).split("\n"):
        if line.startswith("file: "):
            name = line.removeprefix("file: ").strip()
            if name not in texts:
                texts[name] = was[name] = text_of(file_named(folder, name))
        elif line.startswith("old: "):
            old = line.removeprefix("old: ")
        elif line.startswith("new:"):
            if not name or not old:
                raise Wrong("a 'new:' stands before any 'file:' or 'old:'")
            texts[name] = replaced(texts[name], old, line.removeprefix("new:").removeprefix(" "), name)
            old = None
        elif line.strip() and not line.startswith(MARKS):
            raise Wrong(f"a line that is not read: {line[:80]}")
    if old:
        raise Wrong("an 'old:' has no 'new:'")
    if texts == was:
        raise Wrong("it changes nothing")
    return was, texts


def changed_lines(folder, edit):
    """The lines that an edit changes, by file and number from 0. A pair changes one line into one, so no line moves."""
    was, texts = applied(folder, edit)
    return {(name, number): new for name in texts
            for number, (old, new) in enumerate(zip(was[name].split("\n"), texts[name].split("\n"))) if old != new}


def owner_of(head):
    """What the toolchain calls an impl, by its first line: `CacheFaultFromMemory::`, or the type alone."""
    found = IMPL.match(head)
    if not found:
        return ""
    return found["type"].split("::")[-1] + re.sub(r"\W", "", (found["of"] or "").split("::")[-1]) + "::"


def body_of(lines, head, indent):
    """The first and the last line of the body of a function whose head begins in a line, or None if it has no body."""
    for first in range(head, len(lines)):
        line = lines[first]
        if line == f"{indent}{{}}" or first == head and re.match(rf"{indent}\S.*{{.*}}$", line):
            return first, first
        if line == f"{indent}{{" or re.match(rf"{indent}\S.* {{$", line):
            return first, lines.index(f"{indent}}}", first)
        if line.endswith(";"):
            return None
    return None


def functions(name, text):
    """The functions of a source of a crate, as `rt fmt` lays it out."""
    path = name.removeprefix("src/").removesuffix(".rt")
    module = "" if path in ("lib", "main") else path.replace("/", "::") + "::"
    lines, owner, at = text.split("\n"), "", 0
    while at < len(lines):
        if re.match(r"\S", lines[at]):
            owner = owner_of(lines[at])
        head = HEAD.match(lines[at])
        body = body_of(lines, at, head[1]) if head else None
        if body:
            yield Function(module + (owner if head[1] else "") + head[2], *body)
            at = body[1]
        at += 1


def changed_functions(folder, edit):
    """The names of the functions whose bodies hold all that an edit changes, or None if it changes anything else."""
    found = set()
    for name, number in changed_lines(folder, edit):
        source = text_of(os.path.join(folder, name))
        inside = [it.name for it in functions(name, source) if it.first <= number <= it.last]
        if not name.startswith("src/") or not inside:
            return None
        found.update(inside)
    return found
