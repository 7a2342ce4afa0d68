"""Looks whether nurseries order what is in order without them, and nothing else. They start tasks for wide programs.

Each client runs random programs with a nursery from the third child on, and the same without any. The trace of both
has to say what the steps of the program say, of every two touches of different tasks. Then wrong rules are planted in
a copy of the client's source. Each has to be caught by the order of two touches, else the runs before say nothing.

Usage: clients/nurseries.py FOLDER LANGUAGE.., with the built programs in FOLDER. ITC_RANDOM_RUNS says how many random
programs each language runs, 4 where it is not set. The last line is 'nurseries: N passed'.
"""

from __future__ import annotations

import json
import os
import re
import shutil
import subprocess
import sys
import tempfile
from pathlib import Path
from typing import NamedTuple

from random_orders import Shape, check_orders
from wrappers import CLIENTS, INCOMPLETE, Check, Programs, Wrong, run_all, run_system

VARIABLE = "ITC_TRACE_NURSERIES"
NARROW, NONE = {VARIABLE: "2 3"}, {VARIABLE: "100000 1"}
"""A task starts two children itself, and a nursery three. Else it starts all itself."""
WIDE = Shape(steps=400, most_tasks=50, spawns=8)
LEAST = 5
"""So many nurseries a random program has."""
TRIES = 12
"""So many random programs may be run until a wrong rule is caught."""
CAUGHT = re.compile(r"t\d+ (is|is not) told to come before t\d+")
OWN_CHILDREN = 32

JAVA = "src/main/java/example/hometturi/itctrace/Nurseries.java"
Edits = list[tuple[str, str]]


class WrongRule(NamedTuple):
    """What is wrong with it, and by which edits of a file of the client."""

    name: str
    file: str
    edits: Edits


WRONG_RULES = {
    "go": [
        WrongRule("is told nothing later", "nursery.go", [
            ("if told.told == parent.events {", "if told.told > 0 {"),
        ]),
        WrongRule("is one of several tasks", "nursery.go", [
            ("// nurseryOf is", "var shared *nursery\n\n// nurseryOf is"),
            ("	if parent.nursery == nil {\n",
             "	parent.nursery = shared\n	if shared == nil || shared.isOver.Load() {\n"),
            ("		parent.nursery = made\n", "		parent.nursery, shared = made, made\n"),
            ("	if over := parent.nursery; over != nil {",
             "	if over := parent.nursery; over != nil && !over.isOver.Load() {"),
        ]),
        WrongRule("waits for what it has started", "nursery.go", [(
            "	isOver := from.nursery.awaited.Add(-1)",
            "	if !from.nursery.isOver.Load() {\n"
            "		message := t.prefix + strconv.FormatInt(t.messages.Add(1), 10)\n"
            '		by.report(&report{kind: "send", name: message, site: nowhere})\n'
            '		from.nursery.line.report(&report{kind: "recv", name: message, site: nowhere})\n'
            "	}\n"
            "	isOver := from.nursery.awaited.Add(-1)",
        )]),
    ],
    "java": [
        WrongRule("is told nothing later", JAVA, [
            ("if (nursery.told == parent.events) {", "if (nursery.told > 0) {"),
        ]),
        WrongRule("is one of several tasks", JAVA, [
            ("    /** The nursery of the task that has a place left. */", "    private Nursery shared;\n"),
            ("        if (parent.offspring.nursery == null) {\n",
             "        parent.offspring.nursery = shared;\n        if (shared == null || shared.isOver) {\n"),
            ("            parent.offspring.nursery = made;\n",
             "            parent.offspring.nursery = shared = made;\n"),
            ("        if (over != null) {\n", "        if (over != null && !over.isOver) {\n"),
        ]),
        WrongRule("waits for what it has started", JAVA, [(
            "        nursery.awaited--;\n        if (nursery.isOver",
            "        nursery.awaited--;\n        if (!nursery.isOver) {\n"
            '            String message = names.numbered("wrong", System.nanoTime());\n'
            '            reports.tell(task, "send", message, Site.NONE, "");\n'
            '            reports.tell(nursery.line, "recv", message, Site.NONE, "");\n'
            "        }\n        if (nursery.isOver",
        )]),
    ],
    "rust": [
        WrongRule("is told nothing later", "tracer/nurseries.rs", [
            ("if self.nurseries[&starter].told == self.lines[parent].events {",
             "if self.nurseries[&starter].told > 0 {"),
        ]),
        WrongRule("is one of several tasks", "tracer/nurseries.rs", [
            ("        if let Some(known) = self.lines[parent].nursery {\n            return known;",
             "        let open = self.nurseries.iter().find(|(_, nursery)| !nursery.is_over);\n"
             "        if let Some(known) = open.map(|(task, _)| *task) {\n"
             "            self.lines[parent].nursery = Some(known);\n"
             "            return known;"),
            ("        self.tell_end(over);\n",
             "        if self.nurseries.get(&over).map_or(true, |nursery| nursery.is_over) {\n"
             "            return None;\n"
             "        }\n"
             "        self.tell_end(over);\n"),
        ]),
        WrongRule("waits for what it has started", "tracer/nurseries.rs", [(
            "        if !nursery.is_over || nursery.awaited > 0 {\n",
            "        if !nursery.is_over {\n"
            '            let message = self.fresh_message("wrong");\n'
            '            self.tell_of(task, "send", &message, None, "");\n'
            '            self.tell_of(starter, "recv", &message, None, "");\n'
            "            return;\n"
            "        }\n"
            "        if !nursery.is_over || nursery.awaited > 0 {\n",
        )]),
    ],
}


class Told(NamedTuple):
    kind: str
    task: str
    name: str


def told_of(export: Path) -> list[Told]:
    """The reports of an export."""
    events = map(json.loads, export.read_text().splitlines()[1:])
    return [Told(event["kind"], event["task"], event["name"]) for event in events]


def nurseries_in(told: list[Told]) -> list[str]:
    return [report.name for report in told if report.kind == "spawn" and "_itc_nursery" in report.name]


def check_random(programs: Programs, seed: int, variables: dict[str, str]) -> None:
    with tempfile.TemporaryDirectory() as name:
        check_orders(programs, seed, WIDE, Path(name), variables)
        count = len(nurseries_in(told_of(Path(name, "export"))))
    if (count > 0) if variables is NONE else (count < LEAST):
        raise Wrong(f"seed {seed}: there are {count} nurseries")


def told_by(programs: Programs, steps: list[str], variables: dict[str, str]) -> list[Told]:
    """What is reported of these steps."""
    with tempfile.TemporaryDirectory() as name:
        folder = Path(name)
        (folder / "steps").write_text("".join(f"{step}\n" for step in steps))
        words = programs.words("steps", str(folder / "steps"))
        ran = run_system(folder, ["--export", str(folder / "export")], variables=variables, one=words)
        if ran.returncode == INCOMPLETE or "one | done" not in ran.stdout:
            raise Wrong(ran.stdout + ran.stderr)
        return told_of(folder / "export")


def children(count: int) -> list[str]:
    return [f"c{number}" for number in range(count)]


def starts(count: int) -> list[str]:
    return [f"main spawn {child}" for child in children(count)]


def ends(count: int, by: str = "main") -> list[str]:
    return [f"{child} end -" for child in children(count)] + [f"{by} join {child}" for child in children(count)]


def check_few(programs: Programs) -> None:
    """So many children that live need no nursery, nor do more that do not live at a time."""
    few = told_by(programs, starts(OWN_CHILDREN) + ends(OWN_CHILDREN) + ["main touch t0"], {})
    again = told_by(programs, (starts(20) + ends(20)) * 3 + ["main touch t0"], {})
    many = told_by(programs, starts(OWN_CHILDREN + 1) + ends(OWN_CHILDREN + 1) + ["main touch t0"], {})
    counts = [len(nurseries_in(told)) for told in (few, again, many)]
    if counts != [0, 0, 1]:
        raise Wrong(f"{counts} nurseries in place of [0, 0, 1]")
    if any("_place_" in report.name for report in few + again):
        raise Wrong("a message to a nursery without one")


def check_ends(programs: Programs) -> None:
    """A nursery ends behind its last child, and is joined if its own task has joined them all."""
    told = told_by(programs, (starts(5) + ends(5)) * 3 + ["main touch t0"], NARROW)
    made = nurseries_in(told)
    due = [Told(kind, task, name) for one in made for kind, task, name in (("end", one, "-"), ("join", "one", one))]
    if len(made) != 3 or any(one not in told for one in due):
        raise Wrong(f"not each of {made} was ended and joined: {told}")


def check_last_joined_by_another(programs: Programs) -> None:
    """If another task joins the last child, the nursery's own task does not join the nursery."""
    steps = [*starts(5), "main spawn d", *ends(5, by="d"), "d touch t0", "d end -", "main join d"]
    told = told_by(programs, steps, NARROW)
    made = nurseries_in(told)
    if not made or any(report.kind == "join" and report.name in made for report in told):
        raise Wrong(f"{made}: {told}")


def check_shared_message(programs: Programs) -> None:
    """A task that does nothing between two starts tells its nursery once, and after a touch once more."""
    steps = [*starts(4), "main touch t0", "main spawn d", *ends(4), "d end -", "main join d"]
    told = told_by(programs, steps, NARROW)
    kinds = [report.kind for report in told if "_place_" in report.name]
    if kinds != ["send", "recv", "send", "recv"]:
        raise Wrong(f"{kinds}: {told}")


def build(language: str, source: Path, folder: Path) -> None:
    """Builds the program that does steps, of this source of the client."""
    if language == "java":
        sources = [*source.glob("src/main/java/example/hometturi/itctrace/*.java"), *source.glob("examples/*.java")]
        words = ["javac", "-J-XX:TieredStopAtLevel=1", "-nowarn", "-d", str(folder / "java"), *map(str, sources)]
    elif language == "go":
        words = ["go", "build", "-o", str(folder / "go_wrappers"), "./wrappers"]
    else:
        words = ["cargo", "build", "--quiet", "--offline", "--example", "wrappers"]
        words += ["--target-dir", str(folder / "rust")]
    ran = subprocess.run(words, cwd=source, capture_output=True, text=True)
    if ran.returncode:
        raise Wrong(f"a wrong rule of {language} is no program: {ran.stdout}{ran.stderr}")
    if language == "rust":
        shutil.copy(folder / "rust/debug/examples/wrappers", folder / "rust_wrappers")


def check_caught(language: str, rule: WrongRule) -> None:
    with tempfile.TemporaryDirectory() as name:
        source, folder = Path(name, "source"), Path(name, "built")
        shutil.copytree(CLIENTS / language, source, ignore=shutil.ignore_patterns("target"))
        folder.mkdir()
        text = (source / rule.file).read_text()
        for right, wrong in rule.edits:
            if text.count(right) != 1:
                raise Wrong(f"{rule.file} has {text.count(right)} times: {right}")
            text = text.replace(right, wrong)
        (source / rule.file).write_text(text)
        build(language, source, folder)
        if not any(is_caught(Programs(language, folder), seed) for seed in range(TRIES)):
            raise Wrong(f"a nursery that {rule.name} is not caught")


def is_caught(programs: Programs, seed: int) -> bool:
    try:
        check_random(programs, seed, NARROW)
    except Wrong as wrong:
        if CAUGHT.search(str(wrong)):
            return True
        raise
    return False


def checks_of(language: str, folder: Path, runs: int) -> list[Check]:
    programs = Programs(language, folder)
    cases = {"few": check_few, "ends": check_ends, "last joined by another": check_last_joined_by_another,
             "shared message": check_shared_message}
    return [
        *(Check([f"{language}: {rule.name}"], check_caught, (language, rule)) for rule in WRONG_RULES[language]),
        *(Check([f"{language}: {name}"], case, (programs,)) for name, case in cases.items()),
        *(Check([f"{language}: seed {seed}{word}"], check_random, (programs, seed, variables))
          for seed in range(runs) for variables, word in ((NARROW, ""), (NONE, " without"))),
    ]


def main() -> int:
    runs = int(os.environ.get("ITC_RANDOM_RUNS", "4"))
    checks = [check for language in sys.argv[2:] for check in checks_of(language, Path(sys.argv[1]), runs)]
    return run_all("nurseries", checks)


if __name__ == "__main__":
    sys.exit(main())
