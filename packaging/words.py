"""The words of the command lines of `itc_trace` and `itc-trace`, for the manual and the completions.

Those of the program stand in its help, and those of the package in its parser and in its table of commands.
"""

from __future__ import annotations

import argparse
import os
import re
import subprocess
import sys
from typing import NamedTuple

from contents import PROGRAM, TOP

sys.path.insert(0, str(TOP / "clients" / "python"))
from itc_trace.cli import program, table
from itc_trace.cli.commands import parser

COMMAND = re.compile(r"^  (\w+) +(\S.*)$", re.M)
OPTION = re.compile(r"^ +(?:(-\w), )?(--[\w-]+)(?: <(\w+)>)? +(\S.*)$", re.M)


class Option(NamedTuple):
    """An option, with the word that it takes if it takes one."""

    short: str
    long: str
    word: str
    text: str


class Command(NamedTuple):
    name: str
    text: str
    options: list[Option]
    help: str


class CommandLine(NamedTuple):
    """All that one can type behind a name."""

    name: str
    commands: list[Command]
    options: list[Option]
    help: str

    @property
    def function(self) -> str:
        """A name for the function of a shell."""
        return "_itc_trace" if self.name == "itc_trace" else "_itc_trace_command"


def help_of(*words: str) -> str:
    return subprocess.run([PROGRAM, *words, "--help"], capture_output=True, text=True, check=True).stdout


def options(told: str) -> list[Option]:
    return [Option(*found) for found in OPTION.findall(told)]


def commands() -> list[Command]:
    """The commands of the program. `help` prints the help of the others, and has none of its own."""
    listed = help_of().partition("Commands:\n")[2].partition("\n\n")[0]
    named = [(name, text) for name, text in COMMAND.findall(listed) if name != "help"]
    return [Command(name, text, options(help_of(name)), help_of(name)) for name, text in named]


def of_the_program() -> CommandLine:
    return CommandLine("itc_trace", commands(), options(help_of()), help_of())


def of_the_command() -> CommandLine:
    """The command line of the package, which has the program's commands, too."""
    own = _parsers()
    of_program = {one.name for one in commands()}
    listed = [
        _of_parser(name, text, own[name]) if name in own else _of_program(name, text) if name in of_program else _of_picture(name, text)
        for name, text in table.COMMANDS.items()
    ]
    general = [Option("-h", "--help", "", "Print help"), Option("-V", "--version", "", "Print version")]
    return CommandLine("itc-trace", listed, general, table.told("itc-trace"))


def _parsers() -> dict[str, argparse.ArgumentParser]:
    chosen = next(one for one in parser("itc-trace")._actions if isinstance(one, argparse._SubParsersAction))
    return dict(chosen.choices)


def _of_program(name: str, text: str) -> Command:
    told = program.help_of(str(PROGRAM), name)
    return Command(name, text, options(told), told)


def _of_parser(name: str, text: str, parser: argparse.ArgumentParser) -> Command:
    return Command(name, text, [_of_action(one) for one in parser._actions if one.option_strings], parser.format_help())


def _of_action(action: argparse.Action) -> Option:
    long = next(word for word in action.option_strings if word.startswith("--"))
    short = next((word for word in action.option_strings if not word.startswith("--")), "")
    takes = "" if action.nargs == 0 or action.nargs == "?" else str(action.metavar or long[2:].upper())
    return Option(short, long, takes, action.help or "")


def _of_picture(name: str, text: str) -> Command:
    environment = {**os.environ, "COLUMNS": "100", "ITC_TRACE_PICTURE_NAME": f"itc-trace {name}"}
    told = subprocess.run([sys.executable, TOP / name, "--help"], capture_output=True, text=True, check=True, env=environment).stdout
    found = re.findall(r"(?m)^  (?:(-\w), )?(--[\w-]+)(?: ([A-Z]+))?  +(\S.*)$", told)
    return Command(name, text, [Option(*one) for one in found], told)
