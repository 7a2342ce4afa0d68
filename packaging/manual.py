"""The pages of the manual, made from the help of the commands."""

from __future__ import annotations

from contents import MAINTAINER, SUMMARY, version
from words import CommandLine


def page(line: CommandLine) -> str:
    """The page in the language of man."""
    told = [_section(line.name, line.help), *(_section(f"{line.name} {one.name}", one.help) for one in line.commands)]
    head = f'.TH {line.name.upper()} 1 "" "itc_trace {version()}" "User Commands"\n.SH NAME\n{_escaped(line.name)} \\- {_escaped(SUMMARY)}\n'
    return head + "".join(told) + f".SH AUTHOR\n{_escaped(MAINTAINER)}\n"


def _section(title: str, text: str) -> str:
    return f'.SH "{_escaped(title.upper())}"\n.nf\n{_escaped(text.rstrip())}\n.fi\n'


def _escaped(text: str) -> str:
    """As text: no sign of the language of man, neither at the beginning of a line nor within."""
    lines = text.replace("\\", "\\e").replace("-", "\\-").splitlines()
    return "\n".join(f"\\&{line}" if line[:1] in (".", "'") else line for line in lines)
