"""Reads a document with its journals, as `replay` does, or names the first bad line (docs/FORMATS.md, "Journals as text")."""

from journal import (
    Accepted, Begun, Blocked, Changed, Check, Decided, Deliver, Done, Entry, Fail, Finish, Full, Granted, Hear, Held, Idle, IsLocked,
    Kept, LacksLevel, LacksPower, Lock, NoSuch, NotBusy, NotYours, Old, Queued, Released, Report, Reported, Send, Sent, Settled, Stale,
    Submit, Taken, Unlock, Withdraw, Withdrawn, WouldBreak,
)
from promises import Break
from reading import MOST_ROWS, Fault, Reader
from texts import GREATEST_NUMBER, has_bad_byte, is_skipped, lines_of, number_of, tokens_of

# The least and the greatest number of tokens of an event and of a reply, its word among them; None is without end.
EVENT_COUNTS = {
    b"submit": (3, None), b"check": (1, 1), b"lock": (4, 4), b"unlock": (4, 4), b"send": (2, 2), b"deliver": (2, 2),
    b"finish": (2, 2), b"report": (2, 2), b"hear": (2, 2), b"fail": (4, None),
    b"withdraw": (2, 2),
}
REPLY_COUNTS = {
    b"queued": (2, 2), b"full": (2, 2), b"receipt": (4, None), b"idle": (1, 1), b"granted": (1, 1), b"held": (2, 2),
    b"released": (1, 1), b"notyours": (2, 2), b"sent": (2, 2), b"settled": (1, 1), b"blocked": (2, 2), b"begun": (1, 1),
    b"stale": (2, 2), b"nosuch": (2, 2), b"done": (1, 1), b"notbusy": (1, 1), b"reported": (2, 2), b"taken": (1, 1),
    b"old": (2, 2), b"changed": (1, 1), b"withdrawn": (3, None), b"kept": (1, 1),
}
# Of a receipt, with the ticket and `refused` before them.
CAUSE_COUNTS = {b"level": (11, 11), b"off": (5, 5), b"locked": (7, 7), b"broken": (13, None)}

REPLIES = {
    b"submit": (b"queued", b"full"), b"check": (b"receipt", b"idle"), b"lock": (b"granted", b"held"),
    b"unlock": (b"released", b"notyours"), b"send": (b"sent", b"settled", b"blocked"),
    b"deliver": (b"begun", b"stale", b"nosuch"), b"finish": (b"done", b"notbusy"), b"report": (b"reported",),
    b"hear": (b"taken", b"old", b"nosuch"), b"fail": (b"changed",), b"withdraw": (b"withdrawn", b"kept"),
}
PLAIN_REPLIES = {
    b"idle": Idle, b"granted": Granted, b"released": Released, b"settled": Settled, b"begun": Begun, b"done": Done,
    b"notbusy": NotBusy, b"taken": Taken, b"changed": Changed, b"kept": Kept,
}
NUMBER_REPLIES = {
    b"queued": Queued, b"full": Full, b"sent": Sent, b"stale": Stale, b"nosuch": NoSuch, b"reported": Reported, b"old": Old,
}


def read_replay(text):
    """The document and the journal of each group; raises `Fault` with a line and a kind where the text says none."""
    lines = lines_of(text)
    heads = [place for place, line in enumerate(lines) if tokens_of(line)[:1] == [b"journal"]]
    end = heads[0] if heads else len(lines)
    reader = Reader()
    take_lines(reader.take_line, lines[:end], 1)
    if not reader.has_header:
        raise Fault("header", end + 1)
    journals = JournalReader(reader)
    take_lines(journals.take_line, lines[end:], end + 1)
    return reader.document, journals.journals


def take_lines(take, lines, first):
    for number, line in enumerate(lines, first):
        try:
            take(line)
        except Fault as fault:
            raise Fault(fault.kind, number) from None


def within(count, range_):
    least, most = range_
    return least <= count and (most is None or count <= most)


class JournalReader:
    """The journals that the lines so far have said. `reader` has read the document, and knows its names."""

    def __init__(self, reader):
        self.reader, self.document = reader, reader.document
        self.journals = [[] for _ in self.document.groups]
        self.number = None

    def take_line(self, line):
        if has_bad_byte(line):
            raise Fault("byte")
        tokens = tokens_of(line)
        if is_skipped(tokens):
            return
        if tokens[0] == b"journal":
            self.begin_journal(tokens)
        elif tokens[0][:1].isdigit() and self.number is not None:
            self.take_entry(tokens)
        else:
            raise Fault("word")

    def begin_journal(self, tokens):
        if len(tokens) != 2:
            raise Fault("count")
        number = self.reader.group_named(tokens[1])
        if self.number is not None and number <= self.number:
            raise Fault("twice")
        self.number = number

    def take_entry(self, tokens):
        if b":" not in tokens:
            raise Fault("count")
        colon = tokens.index(b":")
        event, reply = tokens[1:colon], tokens[colon + 1:]
        self.count(event, reply)
        entries = self.journals[self.number]
        if number_of(tokens[0]) != len(entries) + 1:
            raise Fault("number")
        if event[0] not in REPLIES or reply[0] not in REPLIES[event[0]]:
            raise Fault("value")
        reader = EntryReader(self.reader, self.document.groups[self.number], len(entries) + 1)
        made_event = reader.event(*event)
        made_reply = reader.reply(*reply)
        reader.end()
        entries.append(Entry(made_event, made_reply))

    def count(self, event, reply):
        if not event or not reply:
            raise Fault("count")
        if event[0] in EVENT_COUNTS and not within(len(event), EVENT_COUNTS[event[0]]):
            raise Fault("count")
        if reply[0] in REPLY_COUNTS and not within(len(reply), REPLY_COUNTS[reply[0]]):
            raise Fault("count")
        if reply[0] != b"receipt":
            return
        if reply[2] == b"accepted" and len(reply) != 4:
            raise Fault("count")
        if reply[2] == b"refused" and reply[3] in CAUSE_COUNTS and not within(len(reply), CAUSE_COUNTS[reply[3]]):
            raise Fault("count")


class EntryReader:
    """Reads the tokens of an entry from left to right; `end` raises what is a fault behind all of them."""

    def __init__(self, reader, group, number):
        self.reader, self.group, self.entry = reader, group, number
        self.late_faults = set()
        self.withdrawn_from = None

    def end(self):
        for kind in ("pair", "limit"):
            if kind in self.late_faults:
                raise Fault(kind)

    def any_number(self, token):
        return self.reader.number_in(token, 0, GREATEST_NUMBER)

    def entity(self, token):
        return self.reader.entity_named(self.group, token)

    def row(self, token):
        return self.reader.assignment(self.group, token, set())

    def fixed(self, token, word):
        if token != word:
            raise Fault("value")

    # Events.

    def event(self, word, *rest):
        return getattr(self, "event_" + word.decode())(*rest)

    def event_submit(self, application, *assignments):
        number = self.reader.application_named(application)
        was_set = set()
        rows = tuple([self.reader.assignment(self.group, each, was_set) for each in assignments])
        if len(rows) > MOST_ROWS:
            self.late_faults.add("limit")
        return Submit(number, rows)

    def event_check(self):
        return Check()

    def lock_event(self, kind, application, entity, priority):
        number = self.reader.application_named(application)
        return kind(number, self.entity(entity), self.reader.one_of(priority, ("low", "high")))

    def event_lock(self, *tokens):
        return self.lock_event(Lock, *tokens)

    def event_unlock(self, *tokens):
        return self.lock_event(Unlock, *tokens)

    def event_send(self, entity):
        return Send(self.entity(entity))

    def event_deliver(self, number):
        return Deliver(self.any_number(number))

    def event_finish(self, entity):
        return Finish(self.entity(entity))

    def event_report(self, entity):
        return Report(self.entity(entity))

    def event_hear(self, number):
        return Hear(self.any_number(number))

    def event_fail(self, token, health, *values):
        entity = self.entity(token)
        health = self.reader.number_in(health, 0, entity.greatest_health())
        named = []
        for place, text in enumerate(values):
            word = text.partition(b"=")[0].decode()
            if place >= len(entity.variables()) or word != entity.variables()[place]:
                raise Fault("value")
            named.append(self.reader.value_of(entity, text)[1])
        if len(named) < len(entity.variables()):
            raise Fault("value")
        return Fail(entity, health, tuple(named))

    def event_withdraw(self, entity):
        self.withdrawn_from = self.entity(entity)
        return Withdraw(self.withdrawn_from)

    # Replies.

    def reply(self, word, *rest):
        if word in PLAIN_REPLIES:
            return PLAIN_REPLIES[word]()
        if word in NUMBER_REPLIES:
            return NUMBER_REPLIES[word](self.any_number(*rest))
        return getattr(self, "reply_" + word.decode())(*rest)

    def reply_held(self, application):
        return Held(self.reader.application_named(application))

    def reply_notyours(self, application):
        return NotYours(None if application == b"-" else self.reader.application_named(application))

    def reply_blocked(self, assignment):
        return Blocked(self.row(assignment))

    def reply_withdrawn(self, version, *assignments):
        version = self.any_number(version)
        rows = []
        for assignment in assignments:
            row = self.row(assignment)
            if row.entity != self.withdrawn_from or (rows and row.variable <= rows[-1].variable):
                raise Fault("value")
            rows.append(row)
        return Withdrawn(version, tuple(rows))

    def reply_receipt(self, ticket, word, *rest):
        ticket = self.any_number(ticket)
        if self.reader.one_of(word, ("accepted", "refused")) == "accepted":
            return Decided(ticket, self.entry, Accepted(self.any_number(*rest)))
        self.reader.one_of(rest[0], ("level", "off", "locked", "broken"))
        return Decided(ticket, self.entry, getattr(self, "cause_" + rest[0].decode())(*rest[1:]))

    def cause_level(self, assignment, of, entity, has, has_number, needs, needs_number):
        row = self.row(assignment)
        self.fixed(of, b"of")
        entity = self.entity(entity)
        self.fixed(has, b"has")
        has_number = self.any_number(has_number)
        self.fixed(needs, b"needs")
        return LacksLevel(row, entity, has_number, self.any_number(needs_number))

    def cause_off(self, assignment):
        return LacksPower(self.row(assignment))

    def cause_locked(self, entity, application, priority):
        entity = self.entity(entity)
        application = self.reader.application_named(application)
        return IsLocked(entity, application, self.reader.one_of(priority, ("low", "high")))

    def cause_broken(self, first, second, word, need, need_number, has, has_number, side, *names):
        ends = self.reader.device_named(self.group, first), self.reader.device_named(self.group, second)
        is_cut_off = self.reader.one_of(word, ("cutoff", "short")) == "cutoff"
        self.fixed(need, b"need")
        need_number = self.any_number(need_number)
        self.fixed(has, b"has")
        has_number = self.any_number(has_number)
        self.fixed(side, b"side")
        devices = []
        for name in names:
            device = self.reader.device_named(self.group, name)
            if devices and device <= devices[-1]:
                raise Fault("twice")
            devices.append(device)
        places = [place for place, promise in enumerate(self.group.promises) if (promise.first, promise.second) == ends]
        if not places:
            self.late_faults.add("pair")
        return WouldBreak(Break(places[0] if places else 0, is_cut_off, need_number, has_number, tuple(devices)))
