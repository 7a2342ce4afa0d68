"""The options of the commands, from which their help, their manual and their completions are made, too."""

from __future__ import annotations

import argparse

from ..record.collector import HOST
from ..record.dividing import LEAVE
from ..record.environment import OWN_TENANT
from .parser import MOST_PORT, Parser, file, name, number, port, tenant
from .run import MOST_SEED
from .settings import FAIL_ON, MOST_RUNS
from .table import COMMANDS

NEW_SEED = -1
LEAST_PART = 100
MOST_SHOWN = 1_000_000
MOST_SECONDS = 1_000_000.0


def parser(called: str) -> Parser:
    """The parser of the commands of the package, by the name that the command line is called by."""
    made = Parser(prog=called, description=f"The commands: `{called} {'|'.join(ADDING)} ..`.")
    commands = made.add_subparsers(dest="command", required=True, parser_class=Parser)
    for command, add in ADDING.items():
        made.commands[command] = commands.add_parser(command, help=COMMANDS[command])
        add(made.commands[command])
    return made


def _add_system(parser: Parser) -> None:
    parser.add_argument("file", type=file, metavar="FILE", help="the TOML file that describes them")
    _add_file(parser, "--export", "keep the trace there, and its journal beside it")
    _add_file(parser, "--picture", "draw the trace there")
    _add_timeout(parser, "the system")
    _add_status_file(parser)
    _add_fail_on(parser)
    _add_looking(parser)


def _add_timeout(parser: Parser, ended: str) -> None:
    parser.add_argument("--timeout", type=_seconds, metavar="S",
                        help=f"after S seconds tell what each task waits for, and end {ended}")


def _add_java(parser: Parser) -> None:
    parser.usage = "%(prog)s [OPTIONS] [--] -jar FILE|CLASS [ARGS..]"
    _add_file(parser, "--export", "keep the trace there, and its journal beside it")
    _add_file(parser, "--picture", "draw the trace there")
    _add_status_file(parser)
    _add_fail_on(parser)
    _add_looking(parser)
    parser.add_argument("--quiet", action="store_true", help="write nothing where there is no race")
    _add_file(parser, "--agent", "the agent that watches the program")
    parser.add_argument("--watch", type=name, metavar="PACKAGE", action="append",
                        help="watch the classes of this package alone")
    parser.add_argument("--exclude", type=name, metavar="PACKAGE", action="append",
                        help="leave the classes of this package as they are")


def _add_races(parser: Parser) -> None:
    parser.usage = "%(prog)s [OPTIONS] EXPORT|--port PORT TENANT JOURNAL.."
    _add_port(parser, is_required=False)
    _add_fail_on(parser)
    _add_looking(parser)
    parser.add_argument("trace", type=file, metavar="EXPORT|TENANT",
                        help="an export, or with --port a tenant of the collector there")
    _add_file(parser, "--picture", "draw the trace there, with its races")
    parser.add_argument("journal", type=file, nargs="*", default=[], metavar="JOURNAL",
                        help="the journal of each process; EXPORT.journal, if none is named; "
                             "that of a run in parts may be EXPORT")


def _add_explain(parser: Parser) -> None:
    parser.usage = "%(prog)s [OPTIONS] ID REPORT|EXPORT|--port PORT TENANT JOURNAL.."
    parser.add_argument("id", type=name, metavar="ID", help="the id of the race, or its first four digits or more")
    parser.add_argument("trace", type=file, metavar="REPORT|EXPORT|TENANT",
                        help="a file of --json, an export, or with --port a tenant of the collector there")
    parser.add_argument("journal", type=file, nargs="*", default=[], metavar="JOURNAL",
                        help="the journal of each process; EXPORT.journal, if none is named")
    _add_port(parser, is_required=False)
    parser.add_argument("--strict", action="store_true", help="two tasks of one loop race as two threads do")
    _add_file(parser, "--picture", "draw the trace of an export there, and link to it")
    _add_file(parser, "--benign", "add a line there by which --benign takes the race for meant")


def _add_relay(parser: Parser) -> None:
    parser.add_argument("--listen", type=_listened_at, required=True, metavar="PORT",
                        help="the port that the processes report to")
    _add_port(parser)


def _add_snapshot(parser: Parser) -> None:
    _add_port(parser)
    parser.add_argument("tenant", type=tenant, metavar="TENANT", help="the tenant whose trace is written")


def _add_file(parser: Parser, option: str, told: str) -> None:
    parser.add_argument(option, type=file, metavar="FILE", help=told)


def _add_port(parser: Parser, is_required: bool = True) -> None:
    parser.add_argument("--port", type=port, required=is_required, metavar="PORT", help="the port of the collector")
    _add_host(parser)


def _add_host(parser: Parser) -> None:
    parser.add_argument("--host", type=name, metavar="HOST", help=f"where the collector is reached ({HOST})")


def _add_fail_on(parser: Parser) -> None:
    parser.add_argument("--fail-on", choices=FAIL_ON,
                        help="end with 66 where there is a race, or where one is possible (race)")


def _add_status_file(parser: Parser) -> None:
    _add_file(parser, "--status-file", "write the verdict and the program's own status there, apart")


def _add_looking(parser: Parser) -> None:
    parser.add_argument("--strict", action="store_true", help="two tasks of one loop race as two threads do")
    parser.add_argument("--benign", type=file, metavar="FILE", action="append", default=[],
                        help="races that are meant: a thing and places a line")
    _add_file(parser, "--baseline", "races that are known: fail on others only")
    _add_file(parser, "--write-baseline", "write the races that were found there, for --baseline")
    _add_report(parser)


def _add_report(parser: Parser) -> None:
    _add_file(parser, "--json", "write what was found there as JSON; - is standard output")
    _add_file(parser, "--sarif", "write it there as SARIF 2.1.0; - is standard output")
    parser.add_argument("--github", action="store_true", help="write it to standard output as annotations of GitHub")
    showing = parser.add_mutually_exclusive_group()
    showing.add_argument("--all", action="store_true", help="list each pair of lines whole, and not one of each cause")
    showing.add_argument("--max", type=_most, metavar="N", help="list N entries at most, each whole")


def _add_run(parser: Parser) -> None:
    parser.add_argument("--port", type=port, metavar="PORT",
                        help="report to the collector at this port, and start none")
    _add_host(parser)
    parser.add_argument("--tenant", type=tenant, default=OWN_TENANT, help=f"the tenant to report for ({OWN_TENANT})")
    parser.add_argument("--process", type=name, help="the name of this process among others that report for the tenant")
    _add_file(parser, "--export", "keep the trace there, and its journal beside it")
    _add_file(parser, "--journal", "keep the journal there")
    _add_file(parser, "--picture", "draw the trace there")
    _add_status_file(parser)
    _add_fail_on(parser)
    _add_looking(parser)
    parser.add_argument("--runs", type=_runs, metavar="N",
                        help="run the program N times, all but the first shaken")
    shaking = parser.add_mutually_exclusive_group()
    shaking.add_argument("--shake", type=_seed, nargs="?", const=NEW_SEED, metavar="SEED",
                         help="perturb the schedule of each run; --shake=SEED as this seed did")
    shaking.add_argument("--no-shake", action="store_true", help="leave the schedule of each run as it is")
    parser.add_argument("--part-events", type=_part_events, default=LEAVE.events, metavar="N",
                        help=f"begin a new part of the trace after N events ({LEAVE.events})")
    confirming = parser.add_mutually_exclusive_group()
    confirming.add_argument("--confirm", action="store_true", default=None,
                            help="try what is possible in further runs, which hold tasks until they meet")
    confirming.add_argument("--no-confirm", action="store_false", dest="confirm",
                            help="try none, also where the settings say so")
    _add_timeout(parser, "the program")
    parser.add_argument("--quiet", action="store_true", help="write nothing where there is no race")
    watching = parser.add_mutually_exclusive_group()
    watching.add_argument("--watch", type=name, metavar="PACKAGE", action="append",
                          help="watch an installed package, too")
    parser.add_argument("--exclude", type=name, metavar="PATTERN", action="append",
                        help="leave the files of the program out that are named so, as vendor/*")
    watching.add_argument("--watch-nothing", action="store_true", help="note only what is shared or touched by hand")
    parser.usage = "%(prog)s [OPTIONS] PROGRAM|-m MODULE [ARGS..]"


def _listened_at(word: str) -> int:
    return number(word, 0, MOST_PORT)


def _most(word: str) -> int:
    return number(word, 0, MOST_SHOWN)


def _runs(word: str) -> int:
    return number(word, 1, MOST_RUNS)


def _seconds(word: str) -> float:
    try:
        seconds = float(word)
    except ValueError:
        seconds = 0.0
    if not 0 < seconds <= MOST_SECONDS:
        raise argparse.ArgumentTypeError(f"{word!r} is no number of seconds from above 0 to {MOST_SECONDS:g}")
    return seconds


def _part_events(word: str) -> int:
    return number(word, LEAST_PART, LEAVE.events)


def _seed(word: str) -> int:
    return number(word, 0, MOST_SEED - 1)


ADDING = {
    "run": _add_run, "java": _add_java, "system": _add_system, "races": _add_races, "explain": _add_explain,
    "relay": _add_relay, "snapshot": _add_snapshot,
}
"""What adds the words of each command."""
