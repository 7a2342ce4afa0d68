"""Runs a store in Python, sales in Java and a truck in Go as one system. All three read the stock from a file and write it: an update is lost.
With `fixed` each of them waits for the one before, and a message orders them.

Usage: clients/shop/shop.py [fixed]. It wants javac and go.
"""

from __future__ import annotations

import json
import os
import subprocess
import sys
import tempfile
from pathlib import Path

CLIENTS = Path(__file__).resolve().parent.parent


def build(folder: Path) -> None:
    sources = [*(CLIENTS / "java/src/main/java/example/hometturi/itctrace").glob("*.java"), CLIENTS / "java/examples/Sales.java"]
    subprocess.run(["javac", "-d", folder / "java", *sources], check=True)
    subprocess.run(["go", "build", "-o", folder / "truck", "./truck"], cwd=CLIENTS / "go", check=True)


def commands(built: Path, folder: Path, *words: str) -> dict[str, list[str]]:
    """The three processes, which share the stock of the folder."""
    (folder / "stock").write_text("10")
    programs = {"store": [sys.executable, str(CLIENTS / "shop/store.py")], "sales": ["java", "-cp", str(built / "java"), "Sales"],
                "truck": [str(built / "truck")]}
    return {name: [*program, str(folder), *words] for name, program in programs.items()}


def main() -> int:
    with tempfile.TemporaryDirectory() as name:
        folder = Path(name)
        build(folder)
        file = folder / "system.toml"
        file.write_text("".join(
            f"[process.{name}]\ncommand = {json.dumps(words)}\n" for name, words in commands(folder, folder, *sys.argv[1:]).items()))
        environment = {**os.environ, "PYTHONPATH": str(CLIENTS / "python")}
        return subprocess.call([sys.executable, "-m", "itc_trace", "system", file], env=environment)


if __name__ == "__main__":
    sys.exit(main())
