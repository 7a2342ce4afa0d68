"""The completions of bash, zsh and fish, made from the words of a command line."""

from __future__ import annotations

from words import Command, CommandLine, Option


def bash(line: CommandLine) -> str:
    """A function that completes the commands, and behind one of them its options."""
    cases = "".join(f"    {command.name}) words='{' '.join(_words(command.options))}' ;;\n" for command in line.commands)
    first = " ".join([*(command.name for command in line.commands), "help", *_words(line.options)])
    return (
        f"# Completes the words of {line.name} for bash.\n{line.function}() {{\n    local words\n    case ${{COMP_WORDS[1]}} in\n"
        f"{cases}    help) words='{' '.join(command.name for command in line.commands)}' ;;\n    *) words= ;;\n    esac\n"
        f"    [ \"$COMP_CWORD\" -gt 1 ] || words='{first}'\n"
        f'    COMPREPLY=($(compgen -W "$words" -- "${{COMP_WORDS[COMP_CWORD]}}"))\n}}\ncomplete -o default -F {line.function} {line.name}\n'
    )


def _words(told: list[Option]) -> list[str]:
    return [word for option in told for word in (option.long, option.short) if word]


def zsh(line: CommandLine) -> str:
    """A function that describes the commands, and behind one of them its options."""
    described = "\n".join(f"        {_quoted(f'{command.name}:{command.text}')}" for command in line.commands)
    cases = "\n".join(f"    {command.name}) _arguments {' '.join(_zsh_words(command))} ;;" for command in line.commands)
    return (
        f"#compdef {line.name}\n# Completes the words of {line.name} for zsh.\n{line.function}() {{\n    local -a commands=(\n{described}\n    )\n"
        "    if (( CURRENT == 2 )); then\n        _describe command commands\n        return\n    fi\n"
        f"    shift words\n    (( CURRENT-- ))\n    case $words[1] in\n{cases}\n    esac\n}}\n{line.function} \"$@\"\n"
    )


def _zsh_words(command: Command) -> list[str]:
    rest = ["'*:tenant:'"] if "<TENANT>" in command.help else ["'*:file:_files'"]
    return [_zsh_option(one) for one in command.options] + rest


def _zsh_option(option: Option) -> str:
    text = option.text.replace("[", "(").replace("]", ")").replace(":", "\\:")
    word = f":{option.word}:{'_files' if option.word == 'FILE' else ''}" if option.word else ""
    return _quoted(f"{option.long}[{text}]{word}")


def fish(line: CommandLine) -> str:
    """A line for each command and for each of its options."""
    lines = [f"# Completes the words of {line.name} for fish.", *([f"complete -c {line.name} -f"] if line.name == "itc_trace" else [])]
    for command in line.commands:
        lines.append(f"complete -c {line.name} -n __fish_use_subcommand -a {command.name} -d {_quoted(command.text)}")
        lines += [_fish_option(line, command, option) for option in command.options]
    return "\n".join(lines) + "\n"


def _fish_option(line: CommandLine, command: Command, option: Option) -> str:
    short = f" -s {option.short[1:]}" if option.short else ""
    takes = " -r" if option.word == "FILE" else " -x" if option.word else ""
    where = f"-n '__fish_seen_subcommand_from {command.name}'"
    return f"complete -c {line.name} {where}{short} -l {option.long[2:]}{takes} -d {_quoted(option.text)}"


def _quoted(text: str) -> str:
    return "'" + text.replace("'", "'\\''") + "'"
