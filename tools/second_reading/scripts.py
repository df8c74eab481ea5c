"""Script order: which command is done when, what each enters in its group's journal, and what the reads see.

From the sections "Messages, rounds" and "Scripts" of docs/DEFINITIONS.md, and "What `serial` does" of docs/FORMATS.md.
"""

from typing import NamedTuple

from document import Await, BreakDown, Poll, Propose, Read, ReadAt, ReturnLock, Settle, TakeLock
from journal import (
    MOST_PENDING, Blocked, Check, Deliver, Fail, Finish, Hear, Lock, Report, Send, Sent, Submit, Unlock, Withdraw,
)
from standing import JournalFull, Standing


class Seen(NamedTuple):
    """What `read` saw: the target's version and the value."""

    group: int
    entity: tuple
    variable: int
    version: int
    value: int


class SeenAt(NamedTuple):
    """What `readat` saw: `value` is None where there was no such version, and then `latest` is the latest."""

    group: int
    entity: tuple
    variable: int
    version: int
    value: int
    latest: int


def schedule(document):
    """The commands in their order, each by its application and its place there."""
    done = [0] * len(document.applications)
    lengths = [len(application.commands) for application in document.applications]
    order = []

    def let(application):
        if done[application] < lengths[application]:
            order.append((application, done[application]))
            done[application] += 1

    for application in document.order:
        let(application)
    while done != lengths:
        for application in range(len(lengths)):
            let(application)
    return order


def arrivals(wire_lines, kind, turn):
    """The numbers of the messages that arrive at a turn of a kind, in order."""
    lines = [line for line in wire_lines if line.kind == kind]
    is_kept = any(line.word in ("drop", "hold") and line.number == turn for line in lines)
    return ([] if is_kept else [turn]) + [line.number for line in lines if line.to_turn == turn]


def is_blocked_change(standing, entity, reply):
    """Whether the reply to a Send is that it is blocked, by a row whose value is not the observed one."""
    return isinstance(reply, Blocked) and reply.row.value != standing.observed[entity].values[reply.row.variable]


class ScriptRun:
    """The run of a document's scripts: the journal of each group, the log of each application, and where it was full."""

    def __init__(self, document):
        self.document = document
        self.standings = [Standing(number, group) for number, group in enumerate(document.groups)]
        self.logs = [[] for _ in document.applications]
        self.full_group = None
        try:
            self.run()
        except JournalFull as full:
            self.full_group = full.group

    def run(self):
        for application, place in schedule(self.document):
            command = self.document.applications[application].commands[place]
            self.do(application, command, self.standings[command.group])
        for standing in self.standings:
            while standing.pending():
                standing.enter(Check())

    def do(self, application, command, standing):
        """One command of an application."""
        if isinstance(command, Propose):
            if len(standing.pending()) >= MOST_PENDING:
                standing.enter(Check())
            standing.enter(Submit(application, command.rows))
        elif isinstance(command, Await):
            while any(owner == application for owner, _ in standing.pending()):
                standing.enter(Check())
        elif isinstance(command, Settle):
            self.settle(standing, command.rounds)
        elif isinstance(command, TakeLock):
            standing.enter(Lock(application, command.entity, command.priority))
        elif isinstance(command, ReturnLock):
            standing.enter(Unlock(application, command.entity, command.priority))
        elif isinstance(command, BreakDown):
            values = list(standing.agents[command.entity].values)
            for variable, value in command.named:
                values[variable] = value
            standing.enter(Fail(command.entity, command.health, tuple(values)))
        elif isinstance(command, Poll):
            self.poll(standing, command.entity)
        elif isinstance(command, Read):
            value = standing.target[command.entity][command.variable]
            self.logs[application].append(Seen(*command, standing.version(), value))
        elif isinstance(command, ReadAt):
            self.read_at(application, standing, command)

    def read_at(self, application, standing, command):
        value = None
        if command.version <= standing.version():
            value = standing.value_at(command.version, command.entity, command.variable)
        self.logs[application].append(
            SeenAt(command.group, command.entity, command.variable, command.version, value, standing.version()))

    def settle(self, standing, rounds):
        """Rounds, at most so many, until every entity is settled."""
        for _ in range(rounds):
            unsettled = [entity for entity in standing.entities if not standing.is_settled(entity)]
            if not unsettled:
                return
            for entity in unsettled:
                self.turn(standing, entity)

    def turn(self, standing, entity):
        reply = standing.enter(Send(entity))
        if is_blocked_change(standing, entity, reply):
            standing.enter(Withdraw(entity))
        if isinstance(reply, Sent):
            for number in arrivals(standing.group.wire_lines, "command", reply.number):
                standing.enter(Deliver(number))
        standing.enter(Finish(entity))
        self.poll(standing, entity)

    def poll(self, standing, entity):
        """A report of the entity, and the hearing of each report that arrives at its turn."""
        reply = standing.enter(Report(entity))
        for number in arrivals(standing.group.wire_lines, "report", reply.number):
            standing.enter(Hear(number))
