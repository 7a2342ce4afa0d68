#!/usr/bin/env python3
"""Loads an export by the definitions alone, slowly: what `itc_trace load` is compared with.

`load_slowly.py TENANT` reads an export from standard input. If no line is faulty it writes the requests that report the
events, each behind the tenant's name. Else it writes `no LINE REASON` on standard error, and its status is 1.

It lists the lines as check_slowly.py does. Its ledger is a list of rows that is searched, beside the id of each task.
"""
import sys

import clock_slowly as clock
from check_slowly import MOST_EVENTS, MOST_MESSAGES, MOST_TASKS, listed_in

GREATEST_LIMITS = {"events": MOST_EVENTS, "tasks": MOST_TASKS, "messages": MOST_MESSAGES}


class Ledger:
    """A tenant under these limits, which has reported nothing."""

    def __init__(self, limits):
        self.limits = limits
        self.rows, self.trees = [], []
        self.ids, self.known = {"root": 1}, {"root": 0}

    def events_of(self, kind, name, task=None):
        """The events of this kind that name this, of one task or of any."""
        return [event for event, row in enumerate(self.rows, 1) if row[:2] == (kind, name) and task in (None, row[2])]

    def is_known(self, task):
        return task == "root" or self.events_of("spawn", task) != []

    def has_ended(self, task):
        return any(row[0] == "end" and row[2] == task for row in self.rows)

    def count(self, kind):
        return sum(row[0] == kind for row in self.rows)

    def refusal(self, kind, name, task):
        """The first code for which the report is refused; nothing where it is accepted."""
        by_kind = {
            "spawn": [(402, self.is_known(name)), (414, 1 + self.count("spawn") >= self.limits["tasks"])],
            "send": [(406, self.events_of("send", name) != []), (415, self.count("send") >= self.limits["messages"])],
            "recv": [(405, self.events_of("send", name) == []), (407, self.events_of("recv", name, task) != [])],
            "join": [(401, not self.is_known(name)), (408, not self.has_ended(name)), (409, self.events_of("join", name) != [])],
        }
        codes = [(401, not self.is_known(task)), (403, self.has_ended(task)), *by_kind.get(kind, []),
                 (413, len(self.rows) >= self.limits["events"])]
        return next((code for code, applies in codes if applies), None)

    def last(self, task):
        """The last event of the task, else the event that started it, else 0."""
        own = [event for event, row in enumerate(self.rows, 1) if row[2] == task]
        return (own or self.events_of("spawn", task) or [0])[-1]

    def preds(self, kind, name, task):
        others = {"recv": self.events_of("send", name), "join": [self.last(name)]}.get(kind, [])
        return sorted({self.last(task), *others} - {0})

    def report(self, kind, name, task):
        """Adds the row of a report that is accepted, and gives its predecessors and the text of its stamp."""
        preds, part, tree = self.preds(kind, name, task), self.ids[task], self.known[task]
        if kind == "recv":
            tree = clock.join(tree, self.trees[self.events_of("send", name)[0] - 1])
        if kind == "join":
            part, tree = clock.sum_of(part, self.ids.pop(name)), clock.join(tree, self.known.pop(name))
        tree = clock.event(part, tree)
        if kind == "spawn":
            part, self.ids[name] = clock.split(part)
            self.known[name] = tree
        self.ids[task], self.known[task] = part, tree
        self.rows.append((kind, name, task))
        self.trees.append(tree)
        return preds, f"[{clock.text_of(part)};{clock.text_of(tree)}]"


def fault_of(ledger, event):
    """Why the event is not the one that its report gives; nothing where it is. The report is done where it is accepted."""
    told = event["kind"], event["name"], event["task"]
    if ledger.refusal(*told) is not None:
        return 7
    return None if ledger.report(*told) == (event["preds"], event["stamp"]) else 8


def request_of(event):
    words = [event["kind"], event["task"], *([] if event["name"] == "-" else [event["name"]])]
    return " ".join(words)


def load(data):
    """`done N` and the requests of N events; or `no LINE REASON` and none."""
    header, listed, fault = listed_in(data)
    ledger, ahead = Ledger(header or GREATEST_LIMITS), 0 if header is None else 1
    for number, (event, _) in enumerate(listed, 1 + ahead):
        reason = fault_of(ledger, event)
        if reason is not None:
            return f"no {number} {reason}", []
    return (fault, []) if fault else (f"done {len(listed)}", [request_of(event) for event, _ in listed])


def main(tenant):
    answer, requests = load(sys.stdin.buffer.read())
    if answer.startswith("no"):
        sys.exit(f"itc_trace: {answer}")
    sys.stdout.write("".join(f"{tenant} {request}\n" for request in requests))


if __name__ == "__main__":
    main(sys.argv[1])
