"""What is seen of a run, also where the collector no longer answers."""

from __future__ import annotations

from collections.abc import Iterable, Iterator

from .benign import Looking
from ..record.collector import HOST
from ..record.journal import Journal, NoJournal, read_whole
from .progress import Bar
from .races import Races, races_of
from .story import add_stories
from ..session import LONGEST_ANSWER, Refused, Session
from ..model.verdict import END_OF_ALL, Cause, Unseen

MOST_LOOKED_AT = 64


def races_seen(
    tenant: str, port: int, journal: Iterable[str], host: str = HOST, looking: Looking | None = None,
    bar: Bar | None = None
) -> Races:
    """The races among what the journal lists, and none where the collector cannot be asked, with that reason."""
    whole, looking = read_whole(journal), looking or Looking()
    try:
        found = races_of(whole, tenant, port, host, looking.strict, bar)
        add_stories([*found.races, *found.possible], whole.rows, found.sources)
        looking.silence(found)
        return found
    except (OSError, Refused) as fault:
        return _unknown(whole, fault)


def check_trace(tenant: str, port: int, lines: Iterable[str], host: str = HOST, trace: str = "") -> None:
    """Makes sure that a journal is of the trace that this tenant has, by some of its events and the last one."""
    rows = sorted(read_whole(lines).rows, key=lambda row: row.event)
    some = [*rows[:: max(1, len(rows) // MOST_LOOKED_AT)], *rows[-1:]]
    with Session(tenant, port, "view", host, LONGEST_ANSWER) as view:
        for row, reply in zip(some, view.ask(f"event {row.event}" for row in some)):
            words = reply.split()
            if words[0] != "200" or words[2] != row.task or words[1] != ("local" if row.is_touch else row.kind):
                name = trace or f"tenant {tenant} at port {port}"
                raise NoJournal(
                    f"the journal is of another trace: {name} has no event {row.event} of {row.task} "
                    "as it is told there: name the trace that was kept with it"
                )


def _unknown(whole: Journal, fault: Exception) -> Races:
    touches = [row for row in whole.rows if row.is_touch]
    unseen = [*whole.unseen, Unseen(Cause.COLLECTOR, f"the collector does not tell the order of events ({fault})")]
    return Races(
        unseen=unseen, events=len(whole.rows), touches=len(touches), things=len({row.thing for row in touches}),
    )


def lines_of(journals: Iterable[str]) -> Iterator[str]:
    """The lines of several journals as of one, with a word of each that breaks off."""
    for name in journals:
        try:
            with open(name, encoding="utf-8", errors="replace") as file:
                lines = list(file)
        except OSError as fault:
            raise NoJournal(f"the journal {name} cannot be read: {fault.strerror}") from fault
        try:
            missing = read_whole(lines).missing
        except NoJournal as fault:
            raise NoJournal(
                f"{name} is no journal: {fault}: name the FILE of --journal, or FILE.journal of --export"
            ) from fault
        yield from (line for line in lines if line.endswith("\n"))
        for one in missing:
            yield one._replace(text=one.text.replace("the journal", name, 1)).row()
    yield END_OF_ALL
