"""The commands, as `python3 -m itc_trace run|system|races|explain|relay|snapshot ..`."""

from __future__ import annotations

import sys

from .cli.commands import main

if __name__ == "__main__":
    sys.exit(main())
