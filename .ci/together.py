"""Tries many mutants of a crate in one check, each in functions of its own.

`rt check` prints a line for each function: it is proved, a goal of it stays open, or it calls a function that is not
proved. A mutant with an open goal of its own is refused, whatever else was changed beside it. A mutant whose functions
only call what is not proved is tried again, without those that were judged. The rest has to be tried by itself: what
seems to be proved, and mutants of a type, an invariant or a proof.
"""
import contextlib
import os
import re
import shutil
import subprocess

import mutants

MOST = 64
PLACE = re.compile(r"(?:note: )?(?:\./)?(\S+?):\d+:\d+: ")
ITEM = re.compile(r"(fn|struct|enum|trait|impl|type) (\S+): (.*)")
# What is said of a proof that may be right, since it cites the theorem of another function.
NOT_ADMITTED = re.compile(r"was not admitted|is not proved$")


def run(words, folder):
    said = {"stdout": subprocess.PIPE, "stderr": subprocess.STDOUT, "text": True, "errors": "replace"}
    return subprocess.run(words, cwd=folder, check=False, **said).stdout


def grouped(functions, most=MOST):
    """Divides mutants, given with the functions that they change, into groups in which no function is changed twice."""
    groups = []
    for name, changed in functions.items():
        fits = (it for it in groups if len(it) < most and not any(changed & functions[other] for other in it))
        group = next(fits, None)
        if group is None:
            groups.append(group := [])
        group.append(name)
    return groups


def joined_lines(folder, paths):
    """The texts of a crate's files in which all these mutants stand at once."""
    texts = {}
    for path in paths:
        for (name, number), line in mutants.changed_lines(folder, path).items():
            lines = texts.setdefault(name, mutants.text_of(os.path.join(folder, name)).split("\n"))
            lines[number] = line
    return {name: "\n".join(lines) for name, lines in texts.items()}


@contextlib.contextmanager
def replaced_files(folder, texts):
    """Has these texts in place of a crate's own for a while."""
    were = {name: mutants.text_of(os.path.join(folder, name)) for name in texts}
    write(folder, texts)
    try:
        yield
    finally:
        write(folder, were)


def write(folder, texts):
    for name, text in texts.items():
        with open(os.path.join(folder, name), "w", encoding="utf-8") as file:
            file.write(text)


def copy_kept(folder, to):
    """Copies what rt kept: checked modules and files of libraries by links, since rt replaces such a file."""
    def link_or_copy(path, other):
        try:
            if path.endswith(".oantt") or "/rlib/" in path:
                return os.link(path, other)
        except OSError:
            pass
        return shutil.copy2(path, other)

    shutil.copytree(folder, to, copy_function=link_or_copy)


def said_with(folder, texts, functions, seed):
    """What a check of these functions says with these texts in place of the crate's own. It begins with what a check of
    the crate itself kept."""
    kept = os.path.join(folder, "out/incremental")
    shutil.rmtree(kept, ignore_errors=True)
    copy_kept(seed, kept)
    with replaced_files(folder, texts):
        return run(["rt", "check", *(word for it in sorted(functions) for word in ("--only", it))], folder)


def said_by_function(said):
    """What a check said of each function, by its name: its line, and the faults that are told above it."""
    found, told = {}, []
    for line in said.split("\n"):
        item = ITEM.match(line)
        if item and item[1] == "fn":
            found[item[2]] = item[3], told
        if item:
            told = []
        elif PLACE.match(line):
            told.append(line)
    return found


def printed(names, crate, function):
    """The name by which a check prints a function, among those that it prints, or None if that is not clear. It has a
    method in the module of its type, wherever the impl stands."""
    short = "::" + "::".join(function.split("::")[-2:])
    same = [it for it in names if it == f"{crate}::{function}"] or [it for it in names if it.endswith(short)]
    return same[0] if len(same) == 1 else None


def functions_of(folder, path, names):
    """The functions that a mutant changes, as a check prints them, or None if it is not clear which, or what else."""
    changed = mutants.changed_functions(folder, path) or {""}
    found = {printed(names, os.path.basename(folder), it) for it in changed}
    return None if None in found else found


def judged(line, told):
    """What came of a mutant by what was said of a function that it changes, or None if that is left open."""
    own = [it for it in told if not NOT_ADMITTED.search(it)]
    if line.startswith(("proved", "could not tell")) or "did not prove" not in line and not own:
        return None
    first = own[0] if own else line
    place = PLACE.match(first)
    return ("written" if place and place[1].startswith("proofs/") else "clause"), first[:200]


def misread(folder, said, paths):
    """The mutants that the compiler refuses, each with what it says."""
    at = {(name, number): path for path in paths for name, number in mutants.changed_lines(folder, path)}
    found = {}
    for name, number, what in re.findall(r"(?m)^(?:\./)?(\S+?):(\d+):\d+: (error\[[\w-]+\].*)", said):
        if (name, int(number) - 1) in at:
            found.setdefault(at[name, int(number) - 1], what)
    return found


def tried_once(folder, group, functions, seed):
    """What came of a group of mutants, by their paths, as far as one check tells."""
    said = said_with(folder, joined_lines(folder, group), {name for it in group for name in functions[it]}, seed)
    bad = misread(folder, said, group)
    if bad:
        return {path: ("bad", what) for path, what in bad.items()}
    said_of, found = said_by_function(said), {}
    for path in group:
        about = [said_of[it] for it in sorted(functions[path]) if it in said_of]
        found.update({path: told for told in (judged(*it) for it in about) if told})
    return found


def tried(folder, paths, seed, said):
    """Gives what came of the mutants of a crate, by their paths, as far as each check of many tells, until a group tells
    no more. A check of the crate itself said this."""
    names = list(said_by_function(said))
    functions = {it: functions_of(folder, it, names) for it in paths}
    for group in grouped({it: changed for it, changed in functions.items() if changed}):
        more = {"": ""}
        while more and len(group) > 1:
            more = tried_once(folder, group, functions, seed)
            group = [it for it in group if it not in more]
            yield more
