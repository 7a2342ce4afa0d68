"""Compiles mutants, many at once, without a proof: by the part of the checker that comes before the prover."""
import os
import re
import shutil

import mutants
import together


def kit():
    """The folder of the toolchain."""
    return os.path.dirname(os.path.dirname(os.path.realpath(shutil.which("rt"))))


def listed(top):
    """What each crate of a checkout stands on, by crates.txt."""
    text = mutants.text_of(os.path.join(top, "crates.txt"))
    lines = (line.partition(":") for line in text.splitlines() if not line.startswith("#"))
    return {name.split()[0]: lower.split() for name, colon, lower in lines if colon}


def below(crates, crate):
    """The crates of the checkout on which a crate stands, each behind those on which it stands itself."""
    found = []
    for name in crates[crate]:
        found += [it for it in (*below(crates, name), name) if it not in found] if name in crates else []
    return found


def words_for(top, crate):
    """The command that compiles a crate, given in its folder, and proves nothing. It reads the sources of those below."""
    crates, folder = listed(top), kit()
    lower = below(crates, crate)
    of_kit = {it for name in (crate, *lower) for it in crates[name] if it not in crates} | {"core", "std"}
    root = "src/main.rt" if os.path.exists(f"{top}/crates/{crate}/src/main.rt") else "src/lib.rt"
    words = [f"{folder}/bin/rattle", "check", "--crate-name", crate, root]
    for name in sorted(of_kit):
        words += ["--extern", f"{name}={folder}/rlibs/{name}.rlib"]
    for name in lower:
        uses = ",".join(dict.fromkeys(["core", "std", *crates[name]]))
        words += ["--lib", f"{name}:{uses}={top}/crates/{name}/src/lib.rt"]
    words += ["-L", f"dependency={folder}/rlibs", "--antt-project", f"{folder}/rattle/logic/antt-project.json"]
    return words + ["--logic-built", f"{folder}/logic_built", "--links", f"{crate}=", "--jobs", "1", "--only", ""]


def compiles(top, crate, texts):
    """What the compiler says of a crate with these texts in place of its own, and whether it takes them."""
    folder = os.path.join(top, "crates", crate)
    with together.replaced_files(folder, texts):
        said = together.run(words_for(top, crate), folder)
    return said, bool(re.search(r"(?m)^only=", said)) and not re.search(r"(?m)^\S+:\d+:\d+: error", said)


def bad_of(top, crate, group):
    """Those of a group of mutants that do not compile, by their paths, with what the compiler says."""
    folder, found = os.path.join(top, "crates", crate), {}
    while group:
        said, is_well = compiles(top, crate, together.joined_lines(folder, group))
        if is_well:
            break
        bad = together.misread(folder, said, group)
        if not bad and len(group) == 1:
            bad = {group[0]: said[-300:]}
        if not bad:
            half = len(group) // 2
            return {**found, **bad_of(top, crate, group[:half]), **bad_of(top, crate, group[half:])}
        found.update(bad)
        group = [it for it in group if it not in bad]
    return found


def bad(top, crate, paths):
    """Those of the mutants of a crate that do not compile. Those of a group change different lines."""
    folder = os.path.join(top, "crates", crate)
    changed, found = {it: set(mutants.changed_lines(folder, it)) for it in paths}, {}
    for group in together.grouped(changed, len(paths)):
        found.update(bad_of(top, crate, group))
    return found
