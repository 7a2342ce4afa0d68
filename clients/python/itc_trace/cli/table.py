"""The commands of `itc-trace`, from which its help, its manual and its completions are made."""

from __future__ import annotations

COMMANDS = {
    "run": "run a Python program with tracing on, and list its races",
    "java": "run a program of Java with tracing on, and list its races",
    "system": "run several processes, and list the races of them together",
    "races": "list the races of a trace by its journal",
    "explain": "tell the story of one race, and what would have put it in order",
    "picture": "write a page that shows an export",
    "snapshot": "write an export of a tenant while it runs",
    "relay": "let many processes report to one tenant",
    "serve": "take the reports of programs, and answer which events are in order",
    "replay": "take the lines of a trace on standard input",
    "check": "say whether a file, or standard input, is an export",
    "load": "write the requests that make an export, of a file or standard input",
}
OPTIONS = ("--help", "-h", "--version", "-V", "help")


def told(name: str) -> str:
    """The help that lists the commands."""
    width = max(map(len, COMMANDS))
    rows = "".join(f"  {command:{width}}  {text}\n" for command, text in COMMANDS.items())
    return f"Usage: {name} <COMMAND> [WORDS]..\n\n{rows}\n`{name} COMMAND --help` tells of each.\n"
