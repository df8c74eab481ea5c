"""What a report alone tells of whether the scripts were carried out: its receipts tell the versions, and so what reads may see."""

from carried_out import History, Wrong, commands_on, request_of, wrong_in_logs
from document import BreakDown, Poll, Propose, Row
from journal import Granted, Held, Lock, NotYours, Released, Submit, lock_reply_text
from most import most
from report import promise_lines
from standing import Standing


def wrong_in_report(document, reports, logs):
    """What is wrong with the reports of groups: of each the first point that is broken; where none is, what is wrong with the logs."""
    found = []
    for number, report in enumerate(reports):
        for point, judge in REPORT_POINTS.items():
            whats = ["%s: %s" % (document.groups[number].name, what) for what in judge(document, number, report)]
            found += [Wrong(point, what) for what in whats]
            if whats:
                break
    return found or wrong_in_logs(document, [history_of(document, *each) for each in enumerate(reports)], logs)


def receipts_of(report):
    """The words of each receipt: ticket, application, `accepted` or `refused`, and what stands behind."""
    return [line.split(" ", 3) for line in report.lines["receipt"]]


def history_of(document, number, report):
    """An application's tickets are, in order, those of its proposals."""
    names = [application.name for application in document.applications]
    waiting = [[command.rows for command in commands_on(document, application, number) if isinstance(command, Propose)]
               for application in range(len(names))]
    proposals, are_accepted, overlays = [], [], withdrawn_of(document.groups[number], report)
    for _, name, word, behind in receipts_of(report):
        application = names.index(name)
        proposals.append((application, waiting[application].pop(0)))
        are_accepted.append(word == "accepted")
        if are_accepted[-1]:
            overlays[int(behind)] = proposals[-1][1]
    return History(document.groups[number], proposals, are_accepted, [overlays[version] for version in sorted(overlays)])


def withdrawn_of(group, report):
    """The rows of each withdrawal, by its version."""
    return {int(version): tuple(row_of(group, word) for word in words)
            for version, *words in (line.split(" ") for line in report.lines["withdrawn"])}


def row_of(group, assignment):
    variable, _, value = assignment.partition("=")
    name, _, word = variable.partition(".")
    entity = group.named[name]
    return Row(entity, entity.variables().index(word), int(value))


def decides_all(document, number, report):
    """The tickets are 1, 2, 3 and so on, and each application has as many as it has proposals."""
    receipts = receipts_of(report)
    if [words[0] for words in receipts] != [str(ticket) for ticket in range(1, len(receipts) + 1)]:
        yield "the tickets are not numbered in order"
    for application, owner in enumerate(document.applications):
        asked = sum(isinstance(command, Propose) for command in commands_on(document, application, number))
        found = sum(words[1] == owner.name for words in receipts)
        if asked != found:
            yield "%s proposes %d times, and has %d receipts" % (owner.name, asked, found)


def counts_versions(_, __, report):
    accepted = [int(words[3]) for words in receipts_of(report) if words[2] == "accepted"]
    withdrawn = [int(line.split(" ")[0]) for line in report.lines["withdrawn"]]
    is_in_order = accepted == sorted(accepted) and withdrawn == sorted(withdrawn)
    if not is_in_order or sorted(accepted + withdrawn) != list(range(1, report.numbers["version"] + 1)):
        yield "version %d, and the receipts have %s, the withdrawals %s" % (report.numbers["version"], accepted, withdrawn)


def asks_for_locks(document, number, report):
    """Each application's requests and returns of locks are its commands', in order, each with the reply that is called for."""
    group, names = document.groups[number], [application.name for application in document.applications]
    waiting = []
    for application in range(len(names)):
        events = [request_of(application, command) for command in commands_on(document, application, number)]
        waiting.append([event for event in events if event is not None and not isinstance(event, Submit)])
    holders = {}
    for line in report.requests:
        application = names.index(line.split(" ")[1])
        if not waiting[application]:
            yield "%s asks for no further lock" % names[application]
            return
        event = waiting[application].pop(0)
        wanted = "%s %s %s %s %s" % (
            type(event).__name__.lower(), names[application], group.name_of(event.entity), event.priority,
            lock_reply_text(document.applications, lock_reply(holders, event)))
        if line != wanted:
            yield "%r in the place of %r" % (line, wanted)
            return
    if any(waiting):
        yield "requests of locks are missing"


def lock_reply(holders, event):
    """Answers a request or a return, and keeps who holds what then."""
    place = event.entity, event.priority
    holder = holders.get(place)
    if isinstance(event, Lock):
        if holder not in (None, event.application):
            return Held(holder)
        holders[place] = event.application
        return Granted()
    if holder != event.application:
        return NotYours(holder)
    del holders[place]
    return Released()


def shows_target(document, number, report):
    """The variables whose value is another than at the opening, of the merge of what was accepted and withdrawn."""
    group, history = document.groups[number], history_of(document, number, report)
    wanted = []
    for entity in group.entities():
        for variable, opening in enumerate(group.opening_values(entity)):
            value = history.value_at(history.version(), entity, variable)
            if value != opening:
                wanted.append(group.assignment(Row(entity, variable, value)))
    if report.lines["target"] != wanted:
        yield "the target lines are %s, the receipts and withdrawals make it %s" % (report.lines["target"], wanted)


def counts_promises(document, number, report):
    """All promises, and those that held at the opening."""
    standing = Standing(number, document.groups[number])
    wanted = next(promise_lines(standing)).split(" now ")[0]
    found = "promises %d start %d" % (report.numbers["promises"], report.numbers["start"])
    if found != wanted:
        yield "%s, wanted %s" % (found, wanted)


def counts_entries(document, number, report):
    """At most as many as the scripts can make, and room for what the report tells of."""
    numbers = report.numbers
    commands = [command for application in range(len(document.applications)) for command in commands_on(document, application, number)]
    failures, polls = (sum(isinstance(command, kind) for command in commands) for kind in (BreakDown, Poll))
    least = (2 * len(report.lines["receipt"]) + len(report.requests) + failures + 2 * len(report.lines["withdrawn"]) + numbers["commands"] + numbers["reports"]
             + numbers["stale"] + numbers["old"])
    if not least <= numbers["entries"] <= most(document, number):
        yield "%d entries, where at least %d and at most %d were wanted" % (numbers["entries"], least, most(document, number))
    if numbers["reports"] < polls:
        yield "%d reports for %d polls" % (numbers["reports"], polls)


REPORT_POINTS = {
    "decides all": decides_all, "counts versions": counts_versions, "asks for locks": asks_for_locks,
    "shows the target": shows_target, "counts promises": counts_promises, "counts entries": counts_entries,
}
