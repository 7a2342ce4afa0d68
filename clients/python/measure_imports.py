"""Measures what an import takes: plain, watched for the first time, and watched once more.

Each import runs in a process of its own, whose time of the processor counts. Of several runs the least one is told.

Usage: python3 clients/python/measure_imports.py [--runs N] MODULE..
"""

from __future__ import annotations

import argparse
import os
import subprocess
import sys
import tempfile
from pathlib import Path

PACKAGE = Path(__file__).resolve().parent
IMPORT = """
import importlib, sys, time
began = time.process_time()
importlib.import_module(sys.argv[1])
print("took", time.process_time() - began)
"""


def took(module: str, folder: Path, compiled: str, is_watched: bool) -> float:
    """Seconds that the import takes, with what was compiled and kept in this folder."""
    program = folder / "program.py"
    program.write_text(IMPORT)
    run = ["-m", "itc_trace", "run", "--watch", module.partition(".")[0]] if is_watched else []
    path = f"{PACKAGE}{os.pathsep}{os.environ.get('PYTHONPATH', '')}"
    environment = {**os.environ, "PYTHONPATH": path, "PYTHONPYCACHEPREFIX": compiled}
    environment.pop("PYTHONDONTWRITEBYTECODE", None)
    command = [sys.executable, *run, str(program), module]
    ran = subprocess.run(command, capture_output=True, text=True, env=environment, check=False)
    for line in ran.stdout.splitlines():
        if line.startswith("took "):
            return float(line.split()[1])
    raise SystemExit(f"{module} cannot be imported: {ran.stderr}")


def measure(module: str, runs: int) -> tuple[float, float, float]:
    with tempfile.TemporaryDirectory() as name:
        folder = Path(name)
        firsts, plain, seconds = [], [], []
        for number in range(runs):
            compiled = str(folder / f"compiled{number}")
            took(module, folder, compiled, False)
            plain.append(took(module, folder, compiled, False))
            firsts.append(took(module, folder, compiled, True))
            seconds.append(took(module, folder, compiled, True))
    return min(plain), min(firsts), min(seconds)


def main() -> None:
    parser = argparse.ArgumentParser(description=__doc__, formatter_class=argparse.RawDescriptionHelpFormatter)
    parser.add_argument("--runs", type=int, default=5)
    parser.add_argument("modules", nargs="+", metavar="MODULE")
    asked = parser.parse_args()
    print(f"| {'module':24} | plain | first | second |")
    for module in asked.modules:
        plain, first, second = measure(module, asked.runs)
        print(f"| {module:24} | {plain:5.2f} | {first:5.2f} | {second:6.2f} |", flush=True)


if __name__ == "__main__":
    main()
