"""What the program has to write, and its exit status: a report as text and as JSON, the line of `check`, and faults."""

import json

from document import Row
from journal import Lock, Old, Stale, Unlock, Withdrawn, lock_reply_text, verdict_text, withdrawn_text
from printing import replay_form
from scripts import Seen

OK, USAGE, TOO_LONG, BAD_INPUT, JOURNAL_FULL, ILLEGAL = 0, 2, 4, 5, 6, 7

USAGE_TEXT = USAGE, "fault usage\n"
TOO_LONG_TEXT = TOO_LONG, "fault long\n"


def serial_text(run):
    """The report of a run that met no full journal, else the line that names the full group."""
    return unless_full(run, lambda: text_of_lines(report_lines(run.document, run.standings, run.logs)))


def serial_json(run):
    return unless_full(run, lambda: report_json(report_lines(run.document, run.standings, run.logs)))


def serial_replay(run):
    """The document with the journals."""
    return unless_full(run, lambda: replay_form(run.document, [standing.entries for standing in run.standings]))


def unless_full(run, text):
    if run.full_group is not None:
        return full_text(run.document.groups[run.full_group])
    return OK, text()


def full_text(group):
    return JOURNAL_FULL, "fault full %s\n" % group.name


def report_lines(document, standings, logs):
    """The lines of the report; a replay has no logs."""
    lines = ["statesman report 1"]
    for standing in standings:
        lines += group_lines(document, standing)
    for application, log in zip(document.applications, logs):
        lines += [read_line(document, application, seen) for seen in log]
    lines.append("end")
    return lines


def text_of_lines(lines):
    return "".join(line + "\n" for line in lines)


def report_json(lines):
    """The report whose lines are these, as JSON."""
    groups, reads = [], []
    for line in lines[1:-1]:
        word, _, rest = line.partition(" ")
        if word == "group":
            groups.append({"name": rest, "locks": [], "receipts": [], "withdrawn": [], "targets": [], "unsettled": [], "lost": []})
        elif word in ("version", "entries"):
            groups[-1][word] = int(rest)
        elif word in ("lock", "unlock"):
            groups[-1]["locks"].append(line)
        elif word == "wire":
            groups[-1]["wire"] = numbers_behind_words(rest)
        elif word == "promises":
            groups[-1].update(numbers_behind_words(line))
        elif word == "read":
            reads.append(rest)
        else:
            groups[-1]["targets" if word == "target" else "receipts" if word == "receipt" else word].append(rest)
    report = {"groups": groups, "reads": reads, "statesman": 1}
    return json.dumps(report, sort_keys=True, separators=(",", ":")) + "\n"


def numbers_behind_words(text):
    words = text.split(" ")
    return {word: int(number) for word, number in zip(words[::2], words[1::2])}


def group_lines(document, standing):
    group, applications = standing.group, document.applications
    yield "group %s" % group.name
    yield "version %d" % standing.version()
    yield "entries %d" % len(standing.entries)
    for event, reply in standing.entries:
        if isinstance(event, (Lock, Unlock)):
            yield "%s %s %s %s %s" % (
                "lock" if isinstance(event, Lock) else "unlock", applications[event.application].name,
                group.name_of(event.entity), event.priority, lock_reply_text(applications, reply))
    for ticket, verdict in enumerate(standing.verdicts, 1):
        application, _ = standing.proposals[ticket - 1]
        yield "receipt %d %s %s" % (ticket, applications[application].name, verdict_text(group, applications, verdict))
    for _, reply in standing.entries:
        if isinstance(reply, Withdrawn):
            yield withdrawn_text(group, reply)
    for entity in standing.entities:
        for variable, value in enumerate(standing.target[entity]):
            if value != standing.opening[entity][variable]:
                yield "target %s" % group.assignment(Row(entity, variable, value))
    for entity in standing.entities:
        if not standing.is_settled(entity):
            yield "unsettled %s" % group.name_of(entity)
    replies = [entry.reply for entry in standing.entries]
    yield "wire commands %d reports %d stale %d old %d" % (
        len(standing.commands), len(standing.reports), sum(isinstance(reply, Stale) for reply in replies),
        sum(isinstance(reply, Old) for reply in replies))
    yield from promise_lines(standing)


def promise_lines(standing):
    """How many promises hold in the simulated network, at the opening and now, and which were lost."""
    group, book = standing.group, standing.book
    now = standing.actual()
    held = [number for number in range(len(group.promises)) if book.holds(number, standing.actual_at_opening)]
    holding = [number for number in range(len(group.promises)) if book.holds(number, now)]
    yield "promises %d start %d now %d" % (len(group.promises), len(held), len(holding))
    for number in held:
        if number not in holding:
            promise = group.promises[number]
            yield "lost %s %s" % (group.devices[promise.first].name, group.devices[promise.second].name)


def read_line(document, application, seen):
    group = document.groups[seen.group]
    variable = group.variable_name(seen.entity, seen.variable)
    if isinstance(seen, Seen):
        what = "version %d value %d" % (seen.version, seen.value)
    elif seen.value is None:
        what = "at %d none latest %d" % (seen.version, seen.latest)
    else:
        what = "at %d value %d" % (seen.version, seen.value)
    return "read %s %s %s %s" % (application.name, group.name, variable, what)


def check_text(document):
    groups, applications = document.groups, document.applications
    return OK, "ok groups %d devices %d links %d promises %d apps %d commands %d\n" % (
        len(groups), sum(len(group.devices) for group in groups), sum(len(group.links) for group in groups),
        sum(len(group.promises) for group in groups), len(applications),
        sum(len(application.commands) for application in applications))


def illegal_text(group, number):
    return ILLEGAL, "fault illegal %s %d\n" % (group.name, number)


def fault_text(fault):
    return BAD_INPUT, "fault input line %d %s\n" % (fault.line, fault.kind)
