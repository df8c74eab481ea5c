"""What it is that threads carried out a document's scripts, by the document, the journals and the logs alone.

From "carried out" in docs/DEFINITIONS.md and the sections behind it. Each point has a name, and a function that yields what is
wrong where the point does not hold. The journals are legal ones: `replaying.py` judges that.
"""

from typing import NamedTuple

from document import Await, BreakDown, Poll, Propose, Read, ReadAt, ReturnLock, Settle, TakeLock
from journal import (
    Accepted, Decided, Deliver, Fail, Finish, Hear, Lock, Queued, Report, Send, Sent, Submit, Unlock, Withdraw, event_text,
)
from scripts import Seen, arrivals, is_blocked_change
from standing import Standing


class Wrong(NamedTuple):
    """A point that does not hold, and where."""

    point: str
    what: str


class History:
    """What the points on logs take from a group's journal: each ticket's application and rows, which were accepted, and the overlays."""

    def __init__(self, group, proposals, are_accepted, overlays):
        self.group, self.proposals, self.are_accepted, self.overlays = group, proposals, are_accepted, overlays

    def version(self):
        return len(self.overlays)

    def value_at(self, version, entity, variable):
        """The value of a variable in the merge of the first `version` overlays."""
        for rows in reversed(self.overlays[:version]):
            for row in rows:
                if (row.entity, row.variable) == (entity, variable):
                    return row.value
        return self.group.opening_values(entity)[variable]

    def tickets_of(self, application):
        return [ticket for ticket, (owner, _) in enumerate(self.proposals, 1) if owner == application]


class Journal:
    """A group's journal, with what the points on journals look for in it. Entries are numbered from 1."""

    def __init__(self, number, group, entries):
        self.number, self.group, self.entries = number, group, entries
        self.decided_at = [place for place, entry in enumerate(entries, 1) if isinstance(entry.reply, Decided)]
        self.settled_until, self.values_before, self.blocked_changes = {}, {}, set()
        self.go_through(Standing(number, group))

    def go_through(self, standing):
        """Keeps for each entity the length of the longest prefix behind which it is settled, values before failures, and overlays."""
        self.look_what_is_settled(standing)
        for place, (event, reply) in enumerate(self.entries, 1):
            if isinstance(event, Fail):
                self.values_before[place] = standing.agents[event.entity].values
            if isinstance(event, Send) and is_blocked_change(standing, event.entity, reply):
                self.blocked_changes.add(place)
            entered = standing.enter(event)
            assert entered == reply, "entry %d of %s is not legal" % (place, self.group.name)
            self.look_what_is_settled(standing)
        self.overlays = standing.overlays

    def look_what_is_settled(self, standing):
        for entity in standing.entities:
            if standing.is_settled(entity):
                self.settled_until[entity] = len(standing.entries)

    def history(self):
        proposals = [(event.application, event.rows) for event, reply in self.entries if isinstance(reply, Queued)]
        verdicts = [reply.verdict for _, reply in self.entries if isinstance(reply, Decided)]
        return History(self.group, proposals, [isinstance(verdict, Accepted) for verdict in verdicts], self.overlays)

    def requests_of(self, application):
        """The entries that name an application, each by its number."""
        return [(place, entry) for place, entry in enumerate(self.entries, 1)
                if isinstance(entry.event, (Submit, Lock, Unlock)) and entry.event.application == application]

    def arrivals(self, kind, message, turn):
        return [message(number) for number in arrivals(self.group.wire_lines, kind, turn)]

    def stand_at(self, place, events):
        """Whether these events stand one behind the other from an entry on."""
        found = self.entries[place - 1:place - 1 + len(events)]
        return [entry.event for entry in found] == events

    def is_poll(self, place, entity):
        """Whether a report of the entity stands there, with the hearing of each report that arrives at its turn right behind it."""
        if not self.stand_at(place, [Report(entity)]):
            return False
        turn = self.entries[place - 1].reply.number
        return self.stand_at(place + 1, self.arrivals("report", Hear, turn))

    def is_turn(self, place, entity):
        """Whether the whole turn of an entity begins there."""
        if not self.stand_at(place, [Send(entity)]):
            return False
        reply = self.entries[place - 1].reply
        middle = self.arrivals("command", Deliver, reply.number) if isinstance(reply, Sent) else []
        if place in self.blocked_changes:
            middle.append(Withdraw(entity))
        middle.append(Finish(entity))
        return self.stand_at(place + 1, middle) and self.is_poll(place + 1 + len(middle), entity)


def request_of(application, command):
    """The event by which a command of an application asks for something, or None."""
    if isinstance(command, Propose):
        return Submit(application, command.rows)
    if isinstance(command, TakeLock):
        return Lock(application, command.entity, command.priority)
    if isinstance(command, ReturnLock):
        return Unlock(application, command.entity, command.priority)
    return None


def commands_on(document, application, number):
    return [command for command in document.applications[application].commands if command.group == number]


class Awaited(NamedTuple):
    """A command of an application on a group, with what its script has before it there.

    That is how many requests, and how many of the application's first tickets are awaited.
    """

    command: tuple
    requests: int
    tickets: int


def with_awaited(document, application, number):
    requests, proposals, awaited = 0, 0, 0
    for command in commands_on(document, application, number):
        yield Awaited(command, requests, awaited)
        requests += request_of(application, command) is not None
        proposals += isinstance(command, Propose)
        if isinstance(command, Await):
            awaited = proposals


# The points on journals. Each is given the document and a `Journal`.

def asks_all(document, journal):
    """The requests that name an application are its commands', in order, each once."""
    for application, owner in enumerate(document.applications):
        events = [request_of(application, command) for command in commands_on(document, application, journal.number)]
        wanted = [event for event in events if event is not None]
        found = [entry.event for _, entry in journal.requests_of(application)]
        if found != wanted:
            place = next((place for place, pair in enumerate(zip(found, wanted)) if pair[0] != pair[1]), min(len(found), len(wanted)))
            texts = ["none" if place >= len(events) else event_text(journal.group, document.applications, events[place])
                     for events in (found, wanted)]
            yield "request %d of %s is %s, its script asks for %s" % (place + 1, owner.name, *texts)


def has_tickets(_, journal):
    """Each proposal was given a ticket."""
    for place, (event, reply) in enumerate(journal.entries, 1):
        if isinstance(event, Submit) and not isinstance(reply, Queued):
            yield "entry %d gives no ticket" % place


def leaves_none_pending(_, journal):
    """Each ticket is decided."""
    history = journal.history()
    if len(history.proposals) != len(history.are_accepted):
        yield "%d tickets, %d decided" % (len(history.proposals), len(history.are_accepted))


def asks_in_time(document, journal):
    """A request behind an await stands behind the decision that was awaited."""
    history = journal.history()
    for application, owner in enumerate(document.applications):
        requests, tickets = journal.requests_of(application), history.tickets_of(application)
        for awaited in with_awaited(document, application, journal.number):
            if request_of(application, awaited.command) is None or awaited.requests >= len(requests):
                continue
            place = requests[awaited.requests][0]
            decision = decision_of(journal, tickets, awaited.tickets)
            if decision is None or place < decision:
                yield "entry %d of %s stands before the decision at entry %s" % (place, owner.name, decision)


def decision_of(journal, tickets, count):
    """The entry that decided the last of an application's first tickets, 0 where these are none, None where it is not decided."""
    if count == 0:
        return 0
    if count > len(tickets) or tickets[count - 1] > len(journal.decided_at):
        return None
    return journal.decided_at[tickets[count - 1] - 1]


def settles_all(document, journal):
    """Behind what the script has before a settle each entity was settled once, or has as many whole turns as rounds."""
    history = journal.history()
    turns = {}
    for application, owner in enumerate(document.applications):
        requests, tickets = journal.requests_of(application), history.tickets_of(application)
        for awaited in with_awaited(document, application, journal.number):
            if not isinstance(awaited.command, Settle):
                continue
            decision = decision_of(journal, tickets, awaited.tickets)
            if decision is None or awaited.requests > len(requests):
                yield "what %s has before a settle is not entered" % owner.name
                continue
            asked = requests[awaited.requests - 1][0] if awaited.requests else 0
            before = max(asked, decision)
            for entity in journal.group.entities():
                if journal.settled_until.get(entity, -1) >= before:
                    continue
                if entity not in turns:
                    turns[entity] = turns_of(journal, entity)
                count = sum(place > before for place in turns[entity])
                if count < awaited.command.rounds:
                    yield "%s asks for %d rounds, %s has %d turns behind entry %d and was not settled there" % (
                        owner.name, awaited.command.rounds, journal.group.name_of(entity), count, before)


def turns_of(journal, entity):
    """The entries with which whole turns of the entity begin; no two turns share an entry, since each has one Send, its first."""
    return [place for place in range(1, len(journal.entries) + 1) if journal.is_turn(place, entity)]


def fails_as_asked(document, journal):
    """The failures are an interleaving of those that the scripts ask for."""
    failures = [(journal.values_before[place], entry.event) for place, entry in enumerate(journal.entries, 1)
                if isinstance(entry.event, Fail)]
    lists = [[command for command in commands_on(document, application, journal.number) if isinstance(command, BreakDown)]
             for application in range(len(document.applications))]
    if not is_interleaving(failures, lists, is_failure_by):
        yield "the %d failures are no interleaving of the %s that the scripts ask for" % (
            len(failures), " + ".join(str(len(each)) for each in lists) or "0")


def is_failure_by(failure, command):
    """The event has the health and the values that the command names, and the values of before where it names none."""
    before, event = failure
    if event.entity != command.entity:
        return False
    values = list(before)
    for variable, value in command.named:
        values[variable] = value
    return event == Fail(command.entity, command.health, tuple(values))


def is_interleaving(items, lists, matches):
    """Each item in order is the next one of one of the lists, and in the end nothing is left of these."""
    # How many are taken of each list, in all ways in which the items so far can be told apart.
    ways = {(0,) * len(lists)}
    for item in items:
        ways = {taken[:number] + (done + 1,) + taken[number + 1:] for taken in ways for number, done in enumerate(taken)
                if done < len(lists[number]) and matches(item, lists[number][done])}
    return tuple(map(len, lists)) in ways


def polls_all(document, journal):
    """For each entity there are as many reports, each with what was to be heard, as there are polls of it."""
    for entity in journal.group.entities():
        asked = sum(isinstance(command, Poll) and command.entity == entity
                    for application in range(len(document.applications))
                    for command in commands_on(document, application, journal.number))
        found = sum(journal.is_poll(place, entity) for place in range(1, len(journal.entries) + 1)) if asked else 0
        if found < asked:
            yield "%d polls of %s are asked for, %d stand there" % (asked, journal.group.name_of(entity), found)


JOURNAL_POINTS = {
    "asks all": asks_all, "has tickets": has_tickets, "leaves none pending": leaves_none_pending, "asks in time": asks_in_time,
    "settles all": settles_all, "fails as asked": fails_as_asked, "polls all": polls_all,
}


# The points on logs. Each is given the document, the `History` of each group, an application, and its log.

def reads_of(document, application):
    return [command for command in document.applications[application].commands if isinstance(command, (Read, ReadAt))]


def logs_all(document, _, application, log):
    """A line for each command that reads, in order, of its kind, group, entity and variable."""
    wanted = [(isinstance(command, Read), command.group, command.entity, command.variable) for command in reads_of(document, application)]
    found = [(isinstance(seen, Seen), seen.group, seen.entity, seen.variable) for seen in log]
    if found != wanted:
        yield "the log has %d lines, the script %d reads, and they are not the same" % (len(found), len(wanted))


def sees_truly(document, histories, application, log):
    """Each line is true of the journal, and of the version that was asked for."""
    for number, (command, seen) in enumerate(zip(reads_of(document, application), log), 1):
        history = histories[seen.group]
        if isinstance(seen, Seen):
            is_true = is_value_at(history, seen)
        elif seen.value is not None:
            is_true = seen.version == command.version and is_value_at(history, seen)
        else:
            is_true = seen.version == command.version and seen.latest < seen.version and seen.latest <= history.version()
        if not is_true:
            yield "line %d is not true: %r" % (number, seen)


def is_value_at(history, seen):
    return seen.version <= history.version() and history.value_at(seen.version, seen.entity, seen.variable) == seen.value


def sees_no_less(document, _, application, log):
    """No version that is seen on a group falls, no latest falls, and a version behind a latest is at least that."""
    for group in range(len(document.groups)):
        version, latest = 0, 0
        for number, seen in enumerate(log, 1):
            if seen.group != group:
                continue
            if isinstance(seen, Seen):
                if seen.version < max(version, latest):
                    yield "line %d has version %d behind %d" % (number, seen.version, max(version, latest))
                version = seen.version
            elif seen.value is None:
                if seen.latest < latest:
                    yield "line %d has the latest version %d behind %d" % (number, seen.latest, latest)
                latest = seen.latest


def sees_awaited(document, histories, application, log):
    """What was accepted among the tickets that were awaited is seen."""
    lines = iter(enumerate(log, 1))
    proposals, awaited = [0] * len(document.groups), [0] * len(document.groups)
    for command in document.applications[application].commands:
        group = command.group
        if isinstance(command, Propose):
            proposals[group] += 1
        elif isinstance(command, Await):
            awaited[group] = proposals[group]
        elif isinstance(command, (Read, ReadAt)):
            number, seen = next(lines, (0, None))
            if seen is None:
                return
            tickets = histories[group].tickets_of(application)[:awaited[group]]
            least = sum(histories[group].are_accepted[:tickets[-1]]) if tickets else 0
            has = seen.version if isinstance(seen, Seen) else seen.latest if seen.value is None else least
            if has < least:
                yield "line %d has version %d, and %d were accepted among what was awaited" % (number, has, least)


LOG_POINTS = {
    "logs all": logs_all, "sees truly": sees_truly, "sees no less": sees_no_less, "sees awaited": sees_awaited,
}


# The whole.

def wrong_in_journals(document, journals):
    """What is wrong with the journals, by the points on them."""
    if len(journals) != len(document.groups):
        return [Wrong("a journal for each group", "%d journals, %d groups" % (len(journals), len(document.groups)))]
    return [Wrong(point, "%s: %s" % (group.name, what))
            for number, group in enumerate(document.groups)
            for made in [Journal(number, group, journals[number])]
            for point, judge in JOURNAL_POINTS.items()
            for what in judge(document, made)]


def wrong_in_logs(document, histories, logs):
    """What is wrong with the logs, by the points on them."""
    if len(logs) != len(document.applications):
        return [Wrong("a log for each application", "%d logs, %d applications" % (len(logs), len(document.applications)))]
    found = []
    for application, log in enumerate(logs):
        name = document.applications[application].name
        for point, judge in LOG_POINTS.items():
            whats = list(judge(document, histories, application, log))
            found += [Wrong(point, "%s: %s" % (name, what)) for what in whats]
            if whats and judge is logs_all:
                # The other points take the lines to be those of the script's reads.
                break
    return found


def wrong(document, journals, logs):
    """What is wrong with journals and logs: nothing exactly where the document's scripts were carried out."""
    found = wrong_in_journals(document, journals)
    if found:
        return found
    histories = [Journal(number, group, journals[number]).history() for number, group in enumerate(document.groups)]
    return wrong_in_logs(document, histories, logs)
