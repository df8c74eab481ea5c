"""The definitions over journals in docs/DEFINITIONS.md, word for word: each looks back over the entries.

That is slow, so it is done over journals of at most `FEW_ENTRIES` entries.

`Standing` keeps what these look for. `first_difference` compares the two over a journal, and tests what the network keeps.
"""

from functools import cached_property

from document import POWER, Row
from journal import (
    MOST_PENDING, Accepted, Begun, Blocked, Changed, Check, Decided, Deliver, Done, Fail, Finish, Full, Granted, Hear, Held, Idle,
    Kept, Lock, NoSuch, NotBusy, NotYours, Old, Queued, Released, Report, Reported, Send, Sent, Settled, Stale, Submit, Taken,
    Unlock, Withdraw, Withdrawn,
)
from judging import judge, lack_of
from standing import Command, MadeReport, carries, level_of

FEW_ENTRIES = 250


class Past:
    """The first `length` entries of a group's journal. `pasts` has the shorter ones, by their lengths."""

    def __init__(self, standing, length, pasts):
        self.group, self.book = standing.group, standing.book
        self.entities = standing.entities
        self.entries = standing.entries[:length]
        self.pasts = pasts
        self.of_entity = {}
        pasts.append(self)

    def at(self, length):
        """The past of the first `length` entries."""
        return self.pasts[length]

    def numbered(self, kind, reply=object):
        """The entries with an event of a kind and a reply of a kind, each with its number, oldest first."""
        return [(number, entry) for number, entry in enumerate(self.entries, 1)
                if isinstance(entry.event, kind) and isinstance(entry.reply, reply)]

    def once(self, word, entity, make):
        key = word, entity
        if key not in self.of_entity:
            self.of_entity[key] = make()
        return self.of_entity[key]

    # Proposals and targets.

    @cached_property
    def proposals(self):
        return [(entry.event.application, entry.event.rows) for _, entry in self.numbered(Submit, Queued)]

    @cached_property
    def verdicts(self):
        return [entry.reply.verdict for _, entry in self.numbered(Check, Decided)]

    @cached_property
    def pending(self):
        return self.proposals[len(self.verdicts):]

    @cached_property
    def overlays_by(self):
        """What each entry overlays the target with, in the order of entries, with the application; a withdrawal has none."""
        found, decided = [], 0
        for event, reply in self.entries:
            if isinstance(event, Check) and isinstance(reply, Decided):
                if isinstance(reply.verdict, Accepted):
                    found.append(self.proposals[decided])
                decided += 1
            if isinstance(event, Withdraw) and isinstance(reply, Withdrawn):
                found.append((None, reply.rows))
        return found

    @cached_property
    def overlays(self):
        return [rows for _, rows in self.overlays_by]

    def version(self):
        return len(self.overlays)

    @cached_property
    def target(self):
        return {entity: tuple(self.target_value(entity, place) for place in range(len(entity.variables())))
                for entity in self.entities}

    def target_value(self, entity, variable):
        for rows in reversed(self.overlays):
            for row in reversed(rows):
                if (row.entity, row.variable) == (entity, variable):
                    return row.value
        return self.group.opening_values(entity)[variable]

    # Locks.

    def holder(self, entity, priority):
        grants = [(number, entry.event.application) for number, entry in self.numbered(Lock, Granted)
                  if (entry.event.entity, entry.event.priority) == (entity, priority)]
        if not grants:
            return None
        granted_at, application = grants[-1]
        own_releases = [number for number, entry in self.numbered(Unlock, Released)
                        if entry.event == Unlock(application, entity, priority) and number > granted_at]
        return None if own_releases else application

    def effective_holder(self, entity):
        for priority in ("high", "low"):
            if self.holder(entity, priority) is not None:
                return self.holder(entity, priority), priority
        return None, None

    # Stamps, messages, agents.

    def stamp(self, entity):
        return self.once("stamp", entity, lambda: self.look_for_stamp(entity))

    def look_for_stamp(self, entity):
        for number in range(len(self.entries), 0, -1):
            if self.moves_target(number, entity):
                return number
        return 0

    def moves_target(self, number, entity):
        """Whether an entry changed or renewed the entity's target."""
        before, (event, reply) = self.at(number - 1), self.entries[number - 1]
        if isinstance(event, Check) and isinstance(reply, Decided) and isinstance(reply.verdict, Accepted):
            _, rows = before.pending[0]
            return any(row.entity == entity and row.value != before.target[entity][row.variable] for row in rows)
        if isinstance(event, Withdraw) and isinstance(reply, Withdrawn):
            return event.entity == entity
        if isinstance(event, Hear) and isinstance(reply, Taken):
            report = before.reports[event.number - 1]
            return (report.entity == entity and not report.is_busy and report.fence == before.stamp(entity)
                    and report.values != before.target[entity])
        return False

    @cached_property
    def commands(self):
        commands = []
        for number, entry in self.numbered(Send, Sent):
            entity, there = entry.event.entity, self.at(number)
            commands.append(Command(entity, there.stamp(entity), there.target[entity]))
        return commands

    @cached_property
    def reports(self):
        return [self.at(number).report_now(entry.event.entity) for number, entry in self.numbered(Report)]

    def report_now(self, entity):
        """The report that the last entry makes."""
        return self.once("report", entity, lambda: self.make_report(entity))

    def make_report(self, entity):
        is_busy, values = self.is_busy(entity), self.values(entity)
        level = level_of(entity, self.health(entity), is_busy, values)
        return MadeReport(entity, self.number(entity), self.fence(entity), is_busy, values, level)

    def deliveries(self, entity):
        """The delivered commands of the entity, each with the number of its Deliver entry."""
        found = []
        for number, entry in self.numbered(Deliver):
            commands = self.at(number - 1).commands
            if 1 <= entry.event.number <= len(commands) and commands[entry.event.number - 1].entity == entity:
                found.append((number, commands[entry.event.number - 1]))
        return found

    def fence(self, entity):
        return self.once("fence", entity, lambda: max(
            (command.stamp for _, command in self.deliveries(entity)), default=0))

    def last_begun(self, entity):
        """The last command that the entity began, with the number of its Deliver entry."""
        return self.once("begun", entity, lambda: self.look_for_begun(entity))

    def look_for_begun(self, entity):
        begun = [(number, command) for number, command in self.deliveries(entity)
                 if command.stamp > self.at(number - 1).fence(entity)]
        return begun[-1] if begun else (None, None)

    def is_busy(self, entity):
        return self.once("busy", entity, lambda: self.look_for_busy(entity))

    def look_for_busy(self, entity):
        begun_at, _ = self.last_begun(entity)
        if begun_at is None:
            return False
        return not any(number > begun_at and entry.event.entity == entity for number, entry in self.numbered(Finish))

    def values(self, entity):
        for number in range(len(self.entries), 0, -1):
            event = self.entries[number - 1].event
            if isinstance(event, Fail) and event.entity == entity:
                return event.values
            if isinstance(event, Finish) and event.entity == entity and self.at(number - 1).is_busy(entity):
                return self.at(number - 1).last_begun(entity)[1].values
        return self.group.opening_values(entity)

    def failures(self, entity):
        return [(number, entry.event) for number, entry in self.numbered(Fail) if entry.event.entity == entity]

    def health(self, entity):
        failures = self.failures(entity)
        return failures[-1][1].health if failures else self.group.opening_health(entity)

    def number(self, entity):
        return sum(entry.event.entity == entity for _, entry in self.numbered(Report))

    # Observed, settled, sure, actual.

    @cached_property
    def observed(self):
        return {entity: self.look_for_observed(entity) for entity in self.entities}

    def look_for_observed(self, entity):
        values = self.group.opening_values(entity)
        level = level_of(entity, self.group.opening_health(entity), False, values)
        heard = [MadeReport(entity, 0, 0, False, values, level)]
        for number, entry in self.numbered(Hear):
            reports = self.at(number - 1).reports
            if 1 <= entry.event.number <= len(reports) and reports[entry.event.number - 1].entity == entity:
                heard.append(reports[entry.event.number - 1])
        return max(heard, key=lambda report: report.number)

    def is_settled(self, entity):
        seen = self.observed[entity]
        return not seen.is_busy and seen.fence == self.stamp(entity) and seen.values == self.target[entity]

    def sure(self):
        return frozenset(entity for entity in self.entities if self.is_settled(entity)
                         and carries(entity, self.observed[entity].values, self.observed[entity].level))

    def actual(self):
        return frozenset(
            entity for entity in self.entities if not self.is_busy(entity)
            and carries(entity, self.values(entity),
                        level_of(entity, self.health(entity), self.is_busy(entity), self.values(entity))))

    def is_untold(self, entity):
        """A failure stands after the making of the observed report."""
        seen = self.observed[entity].number
        return any(self.at(number).number(entity) >= seen for number, _ in self.failures(entity))

    # Replies.

    def reply_to(self, event):
        return getattr(self, "reply_to_" + type(event).__name__.lower())(event)

    def reply_to_submit(self, event):
        if len(self.pending) == MOST_PENDING:
            return Full(MOST_PENDING)
        return Queued(len(self.proposals) + 1)

    def reply_to_check(self, event):
        if not self.pending:
            return Idle()
        return Decided(len(self.verdicts) + 1, len(self.entries) + 1, judge(self, *self.pending[0]))

    def reply_to_lock(self, event):
        holder = self.holder(event.entity, event.priority)
        return Held(holder) if holder is not None and holder != event.application else Granted()

    def reply_to_unlock(self, event):
        holder = self.holder(event.entity, event.priority)
        return Released() if holder == event.application else NotYours(holder)

    def reply_to_send(self, event):
        entity = event.entity
        if self.is_settled(entity):
            return Settled()
        row = self.governing_row(entity)
        lack = lack_of(self.group, self.observed, self.target, row)
        return Blocked(row) if lack is not None else Sent(len(self.commands) + 1)

    def governing_row(self, entity):
        wanted, seen = self.target[entity], self.observed[entity].values
        place = next((place for place in range(len(wanted)) if wanted[place] != seen[place]), POWER)
        return Row(entity, place, wanted[place])

    def reply_to_deliver(self, event):
        if not 1 <= event.number <= len(self.commands):
            return NoSuch(len(self.commands))
        command = self.commands[event.number - 1]
        fence = self.fence(command.entity)
        return Begun() if command.stamp > fence else Stale(fence)

    def reply_to_finish(self, event):
        return Done() if self.is_busy(event.entity) else NotBusy()

    def reply_to_report(self, event):
        return Reported(len(self.reports) + 1)

    def reply_to_hear(self, event):
        if not 1 <= event.number <= len(self.reports):
            return NoSuch(len(self.reports))
        report = self.reports[event.number - 1]
        seen = self.observed[report.entity].number
        return Old(seen) if report.number <= seen else Taken()

    def reply_to_fail(self, event):
        return Changed()

    def reply_to_withdraw(self, event):
        entity = event.entity
        wanted, seen = self.target[entity], self.observed[entity].values
        if wanted == seen or lack_of(self.group, self.observed, self.target, self.governing_row(entity)) is None:
            return Kept()
        rows = [Row(entity, place, seen[place]) for place in range(len(seen)) if seen[place] != wanted[place]]
        return Withdrawn(self.version() + 1, tuple(rows))


def first_difference(standing):
    """Goes through a group's journal; says at which entry the kept and the looked for differ, or a law is broken, or None."""
    if len(standing.entries) > FEW_ENTRIES:
        return None
    pasts = []
    past = Past(standing, 0, pasts)
    held = [number for number in range(len(standing.group.promises)) if standing.book.holds(number, past.sure())]
    for length, entry in enumerate(standing.entries, 1):
        reply = past.reply_to(entry.event)
        if reply != entry.reply:
            return "entry %d: looking back calls for %r, entered is %r" % (length, reply, entry.reply)
        past = Past(standing, length, pasts)
        broken = broken_law(past, held)
        if broken is not None:
            return "entry %d: %s" % (length, broken)
    return difference_of_ends(standing, past)


def difference_of_ends(standing, past):
    pairs = {
        "target": (standing.target, past.target),
        "observed": (standing.observed, past.observed),
        "commands": (standing.commands, past.commands),
        "reports": (standing.reports, past.reports),
        "stamps": (standing.stamps, {entity: past.stamp(entity) for entity in past.entities}),
        "actual": (standing.actual(), past.actual()),
        "sure": (standing.sure(), past.sure()),
    }
    for word, (kept, looked_for) in pairs.items():
        if kept != looked_for:
            return "at the end: %s is %r, and looking back %r" % (word, kept, looked_for)
    return None


def broken_law(past, held):
    """Which clause of "What the network keeps" the past breaks, or None."""
    sure, actual = past.sure(), past.actual()
    for entity in sure - actual:
        if not past.is_untold(entity):
            return "%s is sure, does not carry, and no failure is untold" % past.group.name_of(entity)
    if not past.numbered(Fail):
        for number in held:
            if not past.book.holds(number, sure) or not past.book.holds(number, actual):
                return "promise %d is not kept, and nothing failed" % (number + 1)
    return None
