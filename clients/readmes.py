"""Does what the READMEs of the clients say, word by word, in a fresh folder without the network.

A block that begins with the name of a file is written as that file, a block of `sh` is run, and each line of the block without a
language has to come out, but for the folder before a file.

Usage: clients/readmes.py LANGUAGE.. The last line is 'readmes: N passed'.
"""

from __future__ import annotations

import os
import re
import subprocess
import sys
import tempfile
from concurrent.futures import ThreadPoolExecutor
from pathlib import Path

CLIENTS = Path(__file__).resolve().parent
BLOCK = re.compile(r"^```(\w*)\n(.*?)^```$", re.M | re.S)
NAMED = re.compile(r"(?://|#) (\S+)\n")
MOST_SECONDS = 240
WITHOUT_NETWORK = {"GOPROXY": "off", "GOFLAGS": "-mod=mod", "CARGO_NET_OFFLINE": "true"}


def script_of(page: str) -> tuple[str, list[str]]:
    """The commands of a page, and the lines that have to come out."""
    commands: list[str] = ["set -eu"]
    due: list[str] = []
    for language, text in BLOCK.findall(page):
        named = NAMED.match(text)
        if language == "sh":
            commands.append(text)
        elif named:
            commands.append(f"cat >{named[1]} <<'END OF THE BLOCK'\n{text}END OF THE BLOCK")
        elif language == "":
            due += text.splitlines()
        else:
            raise ValueError(f"a block of {language} begins with no name of a file")
    return "\n".join(commands), due


def faults_of(language: str) -> str:
    """What is otherwise than the page says."""
    script, due = script_of((CLIENTS / language / "README.md").read_text())
    with tempfile.TemporaryDirectory() as folder:
        os.symlink(CLIENTS.parent, Path(folder) / "itc_trace")
        ran = subprocess.run(
            ["sh", "-c", script], cwd=folder, env={**os.environ, **WITHOUT_NETWORK}, capture_output=True, text=True, timeout=MOST_SECONDS)
    told = ran.stdout + ran.stderr
    lines = [re.sub(r" at [^:]*/", " at ", line) for line in told.splitlines()]
    missing = [line for line in due if not any(has(one, line) for one in lines)]
    races = 66
    if not due or missing or ran.returncode != races:
        return f"{language}/README.md: status {ran.returncode}, and without the lines {missing}:\n{told}"
    return ""


def has(line: str, due: str) -> bool:
    """Whether the line is as the page says. It may go on with the source, which the page may leave out."""
    return line == due or line.startswith(f"{due}:  ")


def main() -> int:
    with ThreadPoolExecutor() as pool:
        faults = list(filter(None, pool.map(faults_of, sys.argv[1:])))
    for fault in faults:
        print(f"clients: wrong: {fault}")
    print(f"readmes: {len(sys.argv) - 1 - len(faults)} passed")
    return 1 if faults else 0


if __name__ == "__main__":
    sys.exit(main())
