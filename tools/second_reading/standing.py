"""All that the replies of one group are given from, moved by one entry at a time, and the journal of these entries.

The names are those of docs/DEFINITIONS.md. There a definition looks back over a journal; here each is kept. `looking_back.py`
looks back, and is compared with this.
"""

import copy
from dataclasses import dataclass
from typing import NamedTuple

from document import POWER, ROUTING, Entity, Row
from journal import (
    MOST_ENTRIES, MOST_PENDING, Accepted, Begun, Blocked, Changed, Decided, Done, Entry, Full, Granted, Held, Idle, Kept, NoSuch,
    NotBusy, NotYours, Old, Queued, Released, Reported, Sent, Settled, Stale, Taken, Withdrawn,
)
from judging import altered, judge, lack_of, target_with
from promises import PromiseBook


class JournalFull(Exception):
    """An event met a journal of `MOST_ENTRIES` entries."""

    def __init__(self, group):
        super().__init__(group)
        self.group = group


class Command(NamedTuple):
    entity: Entity
    stamp: int
    values: tuple


class MadeReport(NamedTuple):
    """What a report tells of its entity; the opening's has number 0."""

    entity: Entity
    number: int
    fence: int
    is_busy: bool
    values: tuple
    level: int


@dataclass
class Agent:
    """An entity of the simulated network."""

    values: tuple
    health: int
    fence: int = 0
    is_busy: bool = False
    work: tuple = None
    number: int = 0


def word_of(event):
    return type(event).__name__.lower()


def level_of(entity, health, is_busy, values):
    """The working level of an entity."""
    if is_busy or values[POWER] == 0:
        return 0 if entity.is_link else min(health, 1)
    return health


def carries(entity, values, level):
    if values[POWER] != 1:
        return False
    if entity.is_link:
        return level == 1
    return values[ROUTING] == 1 and level == 5


class Standing:
    """A group's standing. `number` is the group's place in the document."""

    def __init__(self, number, group):
        self.number = number
        self.group = group
        self.book = PromiseBook(group)
        self.entities = group.entities()
        self.entries = []
        self.proposals = []
        self.verdicts = []
        self.overlays = []
        self.target = {entity: group.opening_values(entity) for entity in self.entities}
        self.opening = dict(self.target)
        self.holders = {}
        self.stamps = {entity: 0 for entity in self.entities}
        self.commands = []
        self.reports = []
        self.agents = {entity: Agent(self.opening[entity], group.opening_health(entity)) for entity in self.entities}
        self.observed = {
            entity: MadeReport(entity, 0, 0, False, agent.values, level_of(entity, agent.health, False, agent.values))
            for entity, agent in self.agents.items()
        }
        self.actual_at_opening = self.actual()

    def copied(self):
        """A copy that goes on by itself as long as it enters nothing that moves an agent."""
        other = copy.copy(self)
        for name, value in vars(self).items():
            if isinstance(value, (list, dict)):
                setattr(other, name, value.copy())
        return other

    # What a journal says, at its end.

    def version(self):
        return len(self.overlays)

    def value_at(self, version, entity, variable):
        """The value of a variable in the merge of the first `version` overlays."""
        value = self.opening[entity][variable]
        for rows in self.overlays[:version]:
            for row in rows:
                if (row.entity, row.variable) == (entity, variable):
                    value = row.value
        return value

    def pending(self):
        """The proposals that no verdict decides, each with its application."""
        return self.proposals[len(self.verdicts):]

    def effective_holder(self, entity):
        """The holder of the high lock, else that of the low one, with the priority; else nobody."""
        for priority in ("high", "low"):
            holder = self.holders.get((entity, priority))
            if holder is not None:
                return holder, priority
        return None, None

    def is_settled(self, entity):
        seen = self.observed[entity]
        return not seen.is_busy and seen.fence == self.stamps[entity] and seen.values == self.target[entity]

    def is_sure(self, entity):
        seen = self.observed[entity]
        return self.is_settled(entity) and carries(entity, seen.values, seen.level)

    def sure(self):
        return frozenset(entity for entity in self.entities if self.is_sure(entity))

    def is_actual(self, entity):
        agent = self.agents[entity]
        level = level_of(entity, agent.health, agent.is_busy, agent.values)
        return not agent.is_busy and carries(entity, agent.values, level)

    def actual(self):
        return frozenset(entity for entity in self.entities if self.is_actual(entity))

    def governing_row(self, entity):
        """The lowest variable whose observed value is not the target's, or else power, with the target's value."""
        target = self.target[entity]
        differing = [place for place in range(len(target)) if self.observed[entity].values[place] != target[place]]
        place = differing[0] if differing else POWER
        return Row(entity, place, target[place])

    # One more entry.

    def enter(self, event):
        """Enters an event with the reply that is called for, and answers it."""
        if len(self.entries) >= MOST_ENTRIES:
            raise JournalFull(self.number)
        reply = self.reply_to(event)
        self.entries.append(Entry(event, reply))
        getattr(self, "after_" + word_of(event), self.nothing_moves)(event, reply)
        return reply

    def reply_to(self, event):
        """The reply that an event calls for."""
        return getattr(self, "reply_to_" + word_of(event))(event)

    def nothing_moves(self, event, reply):
        pass

    def entry_number(self):
        """The number of the entry that was entered last."""
        return len(self.entries)

    def reply_to_submit(self, event):
        pending = len(self.pending())
        return Full(pending) if pending >= MOST_PENDING else Queued(len(self.proposals) + 1)

    def after_submit(self, event, reply):
        if isinstance(reply, Queued):
            self.proposals.append((event.application, event.rows))

    def reply_to_check(self, event):
        pending = self.pending()
        if not pending:
            return Idle()
        application, rows = pending[0]
        return Decided(len(self.verdicts) + 1, self.entry_number() + 1, judge(self, application, rows))

    def after_check(self, event, reply):
        if not isinstance(reply, Decided):
            return
        _, rows = self.pending()[0]
        self.verdicts.append(reply.verdict)
        if isinstance(reply.verdict, Accepted):
            self.overlay(rows)

    def overlay(self, rows):
        """Rows overlay the target as its next version, and what they alter has the entry as its stamp."""
        for entity in altered(self.target, rows):
            self.stamps[entity] = self.entry_number()
        self.target = target_with(self.target, rows)
        self.overlays.append(rows)

    def reply_to_lock(self, event):
        holder = self.holders.get((event.entity, event.priority))
        return Granted() if holder in (None, event.application) else Held(holder)

    def after_lock(self, event, reply):
        if isinstance(reply, Granted):
            self.holders[event.entity, event.priority] = event.application

    def reply_to_unlock(self, event):
        holder = self.holders.get((event.entity, event.priority))
        return Released() if holder == event.application else NotYours(holder)

    def after_unlock(self, event, reply):
        if isinstance(reply, Released):
            del self.holders[event.entity, event.priority]

    def reply_to_send(self, event):
        if self.is_settled(event.entity):
            return Settled()
        row = self.governing_row(event.entity)
        if lack_of(self.group, self.observed, self.target, row) is not None:
            return Blocked(row)
        return Sent(len(self.commands) + 1)

    def after_send(self, event, reply):
        if isinstance(reply, Sent):
            self.commands.append(Command(event.entity, self.stamps[event.entity], self.target[event.entity]))

    def reply_to_deliver(self, event):
        if not 1 <= event.number <= len(self.commands):
            return NoSuch(len(self.commands))
        command = self.commands[event.number - 1]
        fence = self.agents[command.entity].fence
        return Begun() if command.stamp > fence else Stale(fence)

    def after_deliver(self, event, reply):
        if isinstance(reply, Begun):
            command = self.commands[event.number - 1]
            agent = self.agents[command.entity]
            agent.fence, agent.is_busy, agent.work = command.stamp, True, command.values

    def reply_to_finish(self, event):
        return Done() if self.agents[event.entity].is_busy else NotBusy()

    def after_finish(self, event, reply):
        agent = self.agents[event.entity]
        if agent.is_busy:
            agent.values, agent.is_busy = agent.work, False

    def reply_to_report(self, event):
        return Reported(len(self.reports) + 1)

    def after_report(self, event, reply):
        agent = self.agents[event.entity]
        agent.number += 1
        level = level_of(event.entity, agent.health, agent.is_busy, agent.values)
        self.reports.append(MadeReport(event.entity, agent.number, agent.fence, agent.is_busy, agent.values, level))

    def reply_to_hear(self, event):
        if not 1 <= event.number <= len(self.reports):
            return NoSuch(len(self.reports))
        report = self.reports[event.number - 1]
        seen = self.observed[report.entity].number
        return Taken() if report.number > seen else Old(seen)

    def after_hear(self, event, reply):
        if not isinstance(reply, Taken):
            return
        report = self.reports[event.number - 1]
        entity = report.entity
        self.observed[entity] = report
        if not report.is_busy and report.fence == self.stamps[entity] and report.values != self.target[entity]:
            self.stamps[entity] = self.entry_number()

    def reply_to_fail(self, event):
        return Changed()

    def after_fail(self, event, reply):
        agent = self.agents[event.entity]
        agent.health, agent.values = event.health, event.values

    def reply_to_withdraw(self, event):
        entity = event.entity
        seen, target = self.observed[entity].values, self.target[entity]
        rows = tuple(Row(entity, place, value) for place, value in enumerate(seen) if value != target[place])
        if not rows or lack_of(self.group, self.observed, self.target, self.governing_row(entity)) is None:
            return Kept()
        return Withdrawn(self.version() + 1, rows)

    def after_withdraw(self, event, reply):
        if isinstance(reply, Withdrawn):
            self.overlay(reply.rows)
