"""Runs the three processes of `day.py` as a system, and lists the races of all of them together.

Usage: three_processes.py [fixed]
"""

import json
import subprocess
import sys
import tempfile
from pathlib import Path

DAY = str(Path(__file__).with_name("day.py"))


def described(name: str, *words: str) -> str:
    return f"[process.{name}]\ncommand = {json.dumps([sys.executable, DAY, name, *words])}\n"


def main() -> int:
    fixed = sys.argv[1:]
    with tempfile.TemporaryDirectory() as folder:
        address, stock, system = (str(Path(folder, name)) for name in ("address", "stock", "system.toml"))
        processes = described("store", address, stock), described("seller", address, *fixed), described("audit", address, stock, *fixed)
        Path(system).write_text("\n".join(processes))
        return subprocess.call([sys.executable, "-m", "itc_trace", "system", system])


sys.exit(main())
