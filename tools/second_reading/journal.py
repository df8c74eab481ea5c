"""Events, replies and verdicts, and the entries of a journal, with the line of text of each (docs/FORMATS.md, "Journals as text")."""

from typing import NamedTuple

from document import Entity, Row
from promises import Break

MOST_ENTRIES = 200000
MOST_PENDING = 64


def kind(named):
    """Two of different kinds are never equal, whatever they hold: as tuples alone `Done()` would be `NotBusy()`."""
    named.__eq__ = lambda self, other: type(self) is type(other) and tuple.__eq__(self, other)
    named.__ne__ = lambda self, other: not self == other
    named.__hash__ = lambda self: hash((type(self).__name__, tuple(self)))
    return named


# Events. Each stands in the journal of one group.

@kind
class Submit(NamedTuple):
    application: int
    rows: tuple


@kind
class Check(NamedTuple):
    pass


@kind
class Lock(NamedTuple):
    application: int
    entity: Entity
    priority: str


@kind
class Unlock(NamedTuple):
    application: int
    entity: Entity
    priority: str


@kind
class Send(NamedTuple):
    entity: Entity


@kind
class Deliver(NamedTuple):
    number: int


@kind
class Finish(NamedTuple):
    entity: Entity


@kind
class Report(NamedTuple):
    entity: Entity


@kind
class Hear(NamedTuple):
    number: int


@kind
class Fail(NamedTuple):
    entity: Entity
    health: int
    values: tuple


@kind
class Withdraw(NamedTuple):
    entity: Entity


# Verdicts.

@kind
class Accepted(NamedTuple):
    version: int


@kind
class LacksLevel(NamedTuple):
    """A row needs more of `entity`, which is the row's own or, for a link's row, one of its ends."""

    row: Row
    entity: Entity
    has: int
    needs: int


@kind
class LacksPower(NamedTuple):
    row: Row


@kind
class IsLocked(NamedTuple):
    entity: Entity
    holder: int
    priority: str


@kind
class WouldBreak(NamedTuple):
    broken: Break


# Replies.

@kind
class Queued(NamedTuple):
    ticket: int


@kind
class Full(NamedTuple):
    pending: int


@kind
class Idle(NamedTuple):
    pass


@kind
class Decided(NamedTuple):
    ticket: int
    entry: int
    verdict: tuple


@kind
class Granted(NamedTuple):
    pass


@kind
class Held(NamedTuple):
    holder: int


@kind
class Released(NamedTuple):
    pass


@kind
class NotYours(NamedTuple):
    """`holder` is None where nobody has the lock."""

    holder: int


@kind
class Settled(NamedTuple):
    pass


@kind
class Blocked(NamedTuple):
    row: Row


@kind
class Sent(NamedTuple):
    number: int


@kind
class NoSuch(NamedTuple):
    made: int


@kind
class Stale(NamedTuple):
    fence: int


@kind
class Begun(NamedTuple):
    pass


@kind
class Done(NamedTuple):
    pass


@kind
class NotBusy(NamedTuple):
    pass


@kind
class Reported(NamedTuple):
    number: int


@kind
class Old(NamedTuple):
    number: int


@kind
class Taken(NamedTuple):
    pass


@kind
class Changed(NamedTuple):
    pass


@kind
class Withdrawn(NamedTuple):
    version: int
    rows: tuple


@kind
class Kept(NamedTuple):
    pass


class Entry(NamedTuple):
    event: tuple
    reply: tuple


def verdict_text(group, applications, verdict):
    """What stands behind a receipt's ticket and application: `accepted N` or `refused CAUSE`."""
    if isinstance(verdict, Accepted):
        return "accepted %d" % verdict.version
    return "refused " + cause_text(group, applications, verdict)


def cause_text(group, applications, verdict):
    """The cause of a refusal."""
    if isinstance(verdict, LacksLevel):
        return "level %s of %s has %d needs %d" % (
            group.assignment(verdict.row), group.name_of(verdict.entity), verdict.has, verdict.needs)
    if isinstance(verdict, LacksPower):
        return "off %s" % group.assignment(verdict.row)
    if isinstance(verdict, IsLocked):
        return "locked %s %s %s" % (
            group.name_of(verdict.entity), applications[verdict.holder].name, verdict.priority)
    broken = verdict.broken
    promise = group.promises[broken.promise]
    return "broken %s %s %s need %d has %d side %s" % (
        group.devices[promise.first].name, group.devices[promise.second].name,
        "cutoff" if broken.is_cut_off else "short", broken.need, broken.has,
        " ".join(group.devices[device].name for device in broken.side))


def lock_reply_text(applications, reply):
    """`granted` or `held APP` of a request, `released`, `notyours APP` or `notyours -` of a return."""
    if isinstance(reply, Held):
        return "held %s" % applications[reply.holder].name
    if isinstance(reply, NotYours):
        return "notyours %s" % ("-" if reply.holder is None else applications[reply.holder].name)
    return "granted" if isinstance(reply, Granted) else "released"


def withdrawn_text(group, reply):
    """`withdrawn N ASSIGNMENT..`, as it stands in a journal and in a report."""
    return "withdrawn %d %s" % (reply.version, " ".join(group.assignment(row) for row in reply.rows))


def event_text(group, applications, event):
    word = type(event).__name__.lower()
    if isinstance(event, Submit):
        rows = " ".join(group.assignment(row) for row in event.rows)
        return "submit %s %s" % (applications[event.application].name, rows)
    if isinstance(event, (Lock, Unlock)):
        return "%s %s %s %s" % (word, applications[event.application].name, group.name_of(event.entity), event.priority)
    if isinstance(event, (Deliver, Hear)):
        return "%s %d" % (word, event.number)
    if isinstance(event, (Send, Finish, Report, Withdraw)):
        return "%s %s" % (word, group.name_of(event.entity))
    if isinstance(event, Fail):
        values = zip(event.entity.variables(), event.values)
        return "fail %s %d %s" % (
            group.name_of(event.entity), event.health, " ".join("%s=%d" % pair for pair in values))
    return word


def reply_text(group, applications, reply):
    word = type(reply).__name__.lower()
    if isinstance(reply, Decided):
        return "receipt %d %s" % (reply.ticket, verdict_text(group, applications, reply.verdict))
    if isinstance(reply, Blocked):
        return "blocked %s" % group.assignment(reply.row)
    if isinstance(reply, Withdrawn):
        return withdrawn_text(group, reply)
    if isinstance(reply, (Granted, Held, Released, NotYours)):
        return lock_reply_text(applications, reply)
    return " ".join([word] + ["%d" % number for number in reply])


def entry_line(document, group, number, entry):
    applications = document.applications
    return "%d %s : %s" % (
        number, event_text(group, applications, entry.event), reply_text(group, applications, entry.reply))
