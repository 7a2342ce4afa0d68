"""The parser of the commands: it says in one line what is wrong with the words, and what would be right."""

from __future__ import annotations

import argparse
import difflib
import re
import sys
from collections.abc import Sequence
from typing import Any, NoReturn

from ..model.readable import readable
from ..record.faults import WORDS_REFUSED
from .saying import UNWRITTEN, say, write

MOST_PORT = 65535
TENANT = re.compile(r"[A-Za-z0-9_]{1,24}")
MISSING = re.compile(r"the following arguments are required: (.*)")
IN_WORDS = (
    (re.compile(r"argument (\S+): expected one argument"), r"\1 wants a value behind it"),
    (re.compile(r"argument (\S+): ignored explicit argument '.*'"), r"\1 takes no value"),
    (re.compile(r"argument (\S+): not allowed with argument (\S+)"), r"\1 and \2 cannot both be given"),
    (
        re.compile(r"argument command: invalid choice: '(.*)' \(choose from (.*)\)"),
        r"there is no command \1: the commands are \2",
    ),
    (re.compile(r"argument (\S+): invalid choice: ('.*') \(choose from (.*)\)"), r"\1 is \2, which is none of \3"),
    (re.compile(r"argument (\S+): "), r"\1: "),
)
"""What argparse says of faulty words, and how it is said here."""
OPTION = re.compile(r"--?[A-Za-z].*")


class Parser(argparse.ArgumentParser):
    """Ends with one line where words are faulty."""

    def __init__(self, **more: Any) -> None:
        super().__init__(allow_abbrev=False, **more)
        self.commands: dict[str, Parser] = {}
        self.typed: list[str] = []
        """What was typed behind the command."""
        self.others: dict[str, Parser] = {}
        """All commands, by their names."""

    def options(self) -> set[str]:
        """All its options, as they are typed."""
        return set(self._option_string_actions)

    def flags(self) -> set[str]:
        """Its options that take no value, or none as a word of its own."""
        return {option for option, action in self._option_string_actions.items() if action.nargs in (0, "?")}

    def error(self, message: str) -> NoReturn:
        missing = MISSING.fullmatch(message)
        if missing:
            self._refuse_unknown_option()
        said = f"{self.prog.split()[-1]} wants {missing[1]}" if missing else message
        for pattern, words in IN_WORDS:
            said = pattern.sub(words, said)
        self.refuse(said)

    def _refuse_unknown_option(self) -> None:
        """An option that there is not may be one that is missing then, misspelled."""
        for word in self.typed:
            if word == "--":
                return
            if OPTION.fullmatch(word) and word.partition("=")[0] not in self.options():
                self.refuse(self.why_left_over(word))

    def print_help(self, file: object = None) -> None:
        if not write(self.format_help()):
            sys.exit(UNWRITTEN)

    def refuse(self, why: str) -> NoReturn:
        say(f"itc_trace: {readable(why)}: see `{self.prog} --help`")
        sys.exit(WORDS_REFUSED)

    def parse_all(self, words: Sequence[str]) -> argparse.Namespace:
        """The words, of which none may be left over. Whose command lacks an option names one like it."""
        for parser in self.commands.values():
            parser.typed, parser.others = list(words[1:]), self.commands
        known, left_over = self.parse_known_args(words)
        rest = [word for word in left_over if word != "--"]
        if rest:
            parser = self.commands.get(known.command, self)
            parser.refuse(parser.why_left_over(rest[0]))
        return known

    def why_left_over(self, word: str) -> str:
        """What is wrong with a word that the command does not take."""
        option, command = word.partition("=")[0], self.prog.split()[-1]
        if not option.startswith("-"):
            return f"{word} is a word too many"
        others = [name for name, other in self.others.items() if option in other.options()]
        if others:
            return f"{command} has no option {option}, but {_listed(others)}"
        like = self._like(option)
        return f"{command} has no option {option}" + (f": did you mean {like}?" if like else "")

    def _like(self, option: str) -> str | None:
        """An option that may have been meant. Each begins with dashes, which make no two of them alike."""
        names = [one.removeprefix("--") for one in self.options() if one.startswith("--")]
        like = difflib.get_close_matches(option.removeprefix("--"), names, 1) if option.startswith("--") else []
        return f"--{like[0]}" if like else None


def _listed(commands: list[str]) -> str:
    """Which commands have something."""
    *before, last = commands
    return f"{', '.join(before)} and {last} have" if before else f"{last} has"


def file(word: str) -> str:
    return _not_empty(word, "the name of a file")


def name(word: str) -> str:
    return _not_empty(word, "a name")


def _not_empty(word: str, what: str) -> str:
    if not word:
        raise argparse.ArgumentTypeError(f"it is empty, and has to be {what}")
    return word


def tenant(word: str) -> str:
    if not TENANT.fullmatch(word):
        raise argparse.ArgumentTypeError(f"{word!r} is no name of a tenant: it has 1 to 24 letters, digits or _")
    return word


def port(word: str) -> int:
    return number(word, 1, MOST_PORT)


def number(word: str, least: int, most: int) -> int:
    value = int(word) if word.isascii() and word.isdigit() else least - 1
    if not word:
        raise argparse.ArgumentTypeError(f"it is empty, and has to be a number from {least} to {most}")
    if not least <= value <= most:
        shown = repr(word) if word != word.strip() else word
        raise argparse.ArgumentTypeError(f"{shown} is no number from {least} to {most}")
    return value
