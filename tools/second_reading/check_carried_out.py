"""Checks what judges runs by itself, without the program: `python3 tools/second_reading/check_carried_out.py --cases 1000`.

Scripts that are done in an order by chance are carried out, and make no more entries than they can. Each point refuses wrong runs,
of legal journals, in which mostly no other point is broken; and wrong reports are refused.
"""

import argparse
import random
import sys
import time

sys.dont_write_bytecode = True

from carried_out import wrong  # noqa: E402
from document import Await, Read, Settle  # noqa: E402
from edges import NETWORK, text_of  # noqa: E402
from journal import MOST_PENDING, Check, Deliver, Fail, Finish, Hear, Lock, Report, Send, Submit, Unlock, Withdraw  # noqa: E402
from judging_reports import wrong_in_report  # noqa: E402
from most import most, share  # noqa: E402
from random_documents import random_document  # noqa: E402
from reading import read_document  # noqa: E402
from report import report_json, report_lines, text_of_lines  # noqa: E402
from report_reading import Unreadable, read_report, text_of_json  # noqa: E402
from scripts import ScriptRun, Seen, SeenAt  # noqa: E402
from standing import Standing  # noqa: E402


class FreeRun(ScriptRun):
    """Scripts by threads, as far as it can be told from one: the holds of applications come in an order by chance.

    A read may see an older version than the latest, but none that is older than what the application was told.
    """

    def __init__(self, document, chance):
        self.chance = chance
        self.told = [[0] * len(document.groups) for _ in document.applications]
        super().__init__(document)

    def run(self):
        works = [(application, self.holds(application)) for application in range(len(self.document.applications))]
        while works:
            work = self.chance.choice(works)
            # Now and then one goes on for a while.
            for _ in range(self.chance.choice((1, 1, 1, 2, 8))):
                if next(work[1], None) is None:
                    works.remove(work)
                    break
        for standing in self.standings:
            while standing.pending():
                standing.enter(Check())

    def holds(self, application):
        """Does the commands of an application, and stops behind each hold of a lock."""
        for command in self.document.applications[application].commands:
            standing = self.standings[command.group]
            if isinstance(command, Await):
                while any(owner == application for owner, _ in standing.pending()):
                    standing.enter(Check())
                    yield True
            elif isinstance(command, Settle):
                yield from self.rounds(standing, command.rounds)
            elif isinstance(command, Read):
                self.read(application, standing, command)
            else:
                self.do(application, command, standing)
            if not isinstance(command, Read):
                self.told[application][command.group] = standing.version()
            yield True

    def rounds(self, standing, count):
        for _ in range(count):
            unsettled = [entity for entity in standing.entities if not standing.is_settled(entity)]
            if not unsettled:
                return
            for entity in unsettled:
                self.turn(standing, entity)
                yield True

    def read(self, application, standing, command):
        told = self.told[application]
        told[command.group] = self.chance.choice((told[command.group], standing.version()))
        value = standing.value_at(told[command.group], command.entity, command.variable)
        self.logs[application].append(Seen(*command, told[command.group], value))


def check_free_runs(count, seconds):
    begin, tried, entries = time.monotonic(), 0, 0
    for seed in range(count):
        if time.monotonic() - begin > seconds:
            break
        chance = random.Random("free run %d" % seed)
        document = read_document("".join(line + "\n" for line in random_document(chance)).encode())
        run = FreeRun(document, chance)
        journals = [standing.entries for standing in run.standings]
        assert wrong(document, journals, run.logs) == [], (seed, wrong(document, journals, run.logs))
        for number, journal in enumerate(journals):
            assert len(journal) <= most(document, number), (seed, len(journal), most(document, number))
            entries += len(journal)
        lines = report_lines(document, run.standings, run.logs)
        assert text_of_json(report_json(lines)) == text_of_lines(lines), seed
        found = wrong_in_report(document, *read_report(document, text_of_lines(lines)))
        assert found == [], (seed, found)
        tried += 1
    print("%d runs in an order by chance, with %d entries, are carried out; %.1f seconds" % (tried, entries, time.monotonic() - begin))


# Wrong runs, over the two-path network. Entities by their names.

GROUP = read_document(text_of(*NETWORK)).groups[0]
T1, A1, A2, L4 = (GROUP.named[name] for name in ("t1", "a1", "a2", "l4"))
UP, TE = 0, 1
FIRMWARE, CONFIG = 1, 2


def rows_of(line):
    return read_document(text_of(*NETWORK, "app up", "propose dc1 " + line)).applications[0].commands[0].rows


FIRST, SECOND = rows_of("a1.firmware=2"), rows_of("a1.firmware=3")
TURN = (Send(A1), Deliver(1), Finish(A1), Report(A1), Hear(1))
# A turn of an entity that can't take its target, which it has; and one that withdraws what it has not.
BLOCKED = (Send(A1), Finish(A1), Report(A1))
WITHDRAWN = (Send(A1), Withdraw(A1), Finish(A1), Report(A1))


def seen(version, value):
    return Seen(0, A1, FIRMWARE, version, value)


def seen_at(version, value):
    return SeenAt(0, A1, FIRMWARE, version, value, 1)


def seen_none(version, latest):
    return SeenAt(0, A1, FIRMWARE, version, None, latest)


class Script:
    """A document's commands, and the runs of it: events of its group, and logs."""

    def __init__(self, *lines):
        self.document = read_document(text_of(*NETWORK, *lines))

    def journal(self, events):
        standing = Standing(0, self.document.groups[0])
        for event in events:
            standing.enter(event)
        return standing.entries

    def points(self, events, *logs):
        return {each.point for each in wrong(self.document, [self.journal(events)], [list(log) for log in logs])}


def check_wrong_runs():
    """Rows of a script, events, logs, and the points that are broken."""
    count = 0
    for rows in (requests(), turns(), failures_and_polls(), logs(), tickets()):
        for what, script, events, logs_of_run, broken in rows:
            points = script.points(events, *logs_of_run)
            assert points == broken, (what, points, broken)
            count += bool(broken)
    shapes = Script("app up")
    assert {each.point for each in wrong(shapes.document, [], [[]])} == {"a journal for each group"}
    assert {each.point for each in wrong(shapes.document, [[]], [])} == {"a log for each application"}
    print("%d wrong runs are refused" % (count + 2))


def requests():
    submit, other, lock, unlock = Submit(UP, FIRST), Submit(UP, SECOND), Lock(UP, A2, "low"), Unlock(UP, A2, "low")
    script = Script("app up", "propose dc1 a1.firmware=2", "await dc1", "lock dc1 a2 low", "unlock dc1 a2 low", "app te")
    right = [submit, Check(), lock, unlock]
    none = ([], [])
    yield "all is asked", script, right, none, set()
    yield "the last command is missing", script, right[:-1], none, {"asks all"}
    yield "a command of the middle is missing", script, [submit, Check(), unlock], none, {"asks all"}
    yield "two commands are swapped", script, [submit, Check(), unlock, lock], none, {"asks all"}
    yield "other rows are proposed", script, [other, Check(), lock, unlock], none, {"asks all"}
    yield "a lock of the other priority", script, [submit, Check(), Lock(UP, A2, "high"), unlock], none, {"asks all"}
    yield "another entity is locked", script, [submit, Check(), Lock(UP, A1, "low"), unlock], none, {"asks all"}
    yield "a request of another application", script, right + [Lock(TE, A1, "low")], none, {"asks all"}
    yield "a request twice", script, right + [unlock], none, {"asks all"}
    yield "a request before the decision", script, [submit, lock, Check(), unlock], none, {"asks in time"}
    yield "all requests before the decision", script, [submit, lock, unlock, Check()], none, {"asks in time"}
    two = Script("app up", "propose dc1 a1.firmware=2", "propose dc1 a1.firmware=3", "await dc1", "lock dc1 a2 low", "app te")
    yield "behind the latest decision", two, [submit, other, Check(), Check(), lock], none, set()
    yield "behind the first decision alone", two, [submit, other, Check(), lock, Check()], none, {"asks in time"}
    between = Script("app up", "propose dc1 a1.firmware=2", "await dc1", "propose dc1 a1.firmware=3", "lock dc1 a2 low", "app te")
    yield "what was not awaited is not waited for", between, [submit, Check(), other, lock, Check()], none, set()
    yield "a proposal before the decision", between, [submit, other, Check(), lock, Check()], none, {"asks in time"}
    others = Script("app up", "await dc1", "lock dc1 a2 low", "app te", "propose dc1 a1.firmware=2")
    theirs = Submit(TE, FIRST)
    yield "nothing of its own is awaited", others, [theirs, lock, Check()], none, set()


def tickets():
    none = ([],)
    script = Script("app up", "propose dc1 a1.firmware=2")
    yield "a proposal waits for ever", script, [Submit(UP, FIRST)], none, {"leaves none pending"}
    many = Script("app up", *["propose dc1 a1.firmware=2"] * (MOST_PENDING + 1))
    submits, checks = [Submit(UP, FIRST)] * MOST_PENDING, [Check()] * MOST_PENDING
    yield "a check makes room", many, submits + [Check(), Submit(UP, FIRST)] + checks, none, set()
    yield "a proposal is given no ticket", many, submits + [Submit(UP, FIRST)] + checks, none, {"has tickets"}


def turns():
    none = ([],)
    propose = ["app up", "propose dc1 a1.firmware=2", "await dc1"]
    before = [Submit(UP, FIRST), Check()]
    script = Script(*propose, "settle dc1 2")
    yield "a turn settles", script, before + list(TURN), none, set()
    yield "a settle is dropped", script, before, none, {"settles all"}
    yield "a turn lacks its Hear", script, before + list(TURN[:-1]), none, {"settles all"}
    lost = Script("drop dc1 command 1", "drop dc1 command 2", *propose, "settle dc1 2")
    first = (Send(A1), Finish(A1), Report(A1), Hear(1))
    second = (Send(A1), Finish(A1), Report(A1), Hear(2))
    yield "two turns where both commands are lost", lost, before + list(first + second), none, set()
    yield "one turn where two were asked for", lost, before + list(first), none, {"settles all"}
    yield "one turn whose Send stands twice", lost, before + [Send(A1)] + list(first), none, {"settles all"}
    yield "one turn whose report stands twice", lost, before + list(first) + [Finish(A1), Report(A1), Hear(2)], none, {"settles all"}
    yield "one turn, and a report", lost, before + list(first) + [Report(A1), Hear(2)], none, {"settles all"}
    yield "another event inside the second turn", lost, before + list(first) + [Send(A1), Finish(A1), Finish(A2), Report(A1), Hear(2)], \
        none, {"settles all"}
    late = Script("hold dc1 report 1 3", *propose, "settle dc1 1")
    yield "a turn whose report is late", late, before + list(TURN[:-1]), none, set()
    yield "a turn whose command is not delivered", late, before + [TURN[0]] + list(TURN[2:-1]), none, {"settles all"}
    blocked = Script("app up", "propose dc1 a1.firmware=2", "await dc1", "fail dc1 a1 0", "poll dc1 a1", "settle dc1 2")
    fault = before + [Fail(A1, 0, (1, 1, 1, 1)), Report(A1), Hear(1)]
    one, two = list(WITHDRAWN) + [Hear(2)], list(BLOCKED) + [Hear(3)]
    yield "two turns that are blocked", blocked, fault + one + two, none, set()
    yield "one turn that is blocked", blocked, fault + one, none, {"settles all"}
    yield "one that does not withdraw", blocked, fault + list(BLOCKED) + [Hear(2)] + list(WITHDRAWN) + [Hear(3)], none, {"settles all"}
    yield "one that is blocked, with Send twice", blocked, fault + [Send(A1)] + one, none, {"settles all"}
    yield "turns before the decision that is awaited", blocked, [Submit(UP, FIRST)] + list(BLOCKED) + [Hear(1), Check()], none, \
        {"settles all", "fails as asked"}
    later = Script("drop dc1 command 1", *propose, "lock dc1 a2 low", "settle dc1 1")
    yield "a turn behind all requests", later, before + [Lock(UP, A2, "low")] + list(first), none, set()
    yield "a turn before the last request", later, before + list(first) + [Lock(UP, A2, "low")], none, {"settles all"}
    settled = Script(*propose, "settle dc1 1", "propose dc1 a1.firmware=3", "await dc1", "settle dc1 1")
    again = [Submit(UP, SECOND), Check()]
    yield "it was settled in between", settled, before + list(TURN) + again + [Send(A1), Deliver(2), Finish(A1), Report(A1), Hear(2)], none, set()
    yield "the second settle is dropped", settled, before + list(TURN) + again, none, {"settles all"}


def failures_and_polls():
    none = ([], [])
    script = Script("app up", "fail dc1 l4 0 iface=7", "fail dc1 a1 3", "app te", "fail dc1 a1 2 config=9", "poll dc1 t1", "poll dc1 t1")
    link, first = Fail(L4, 0, (1, 7)), Fail(A1, 3, (1, 1, 1, 1))
    other, behind = Fail(A1, 2, (1, 1, 9, 1)), Fail(A1, 3, (1, 1, 9, 1))
    polls = [Report(T1), Hear(1), Report(T1), Hear(2)]
    yield "one order", script, [link, first, other] + polls, none, set()
    yield "another order, with the values of before", script, [link, other, behind] + polls, none, set()
    yield "another order, with the opening's values", script, [link, other, first] + polls, none, {"fails as asked"}
    yield "another variable is changed", script, [Fail(L4, 0, (0, 7)), first, other] + polls, none, {"fails as asked"}
    yield "another value", script, [Fail(L4, 0, (1, 8)), first, other] + polls, none, {"fails as asked"}
    yield "another health", script, [Fail(L4, 1, (1, 7)), first, other] + polls, none, {"fails as asked"}
    yield "two failures of one application swapped", script, [first, link, other] + polls, none, {"fails as asked"}
    yield "a failure is missing", script, [link, first] + polls, none, {"fails as asked"}
    yield "a failure twice", script, [link, first, other, Fail(A1, 2, (1, 1, 9, 1))] + polls, none, {"fails as asked"}
    yield "a poll without its Hear", script, [link, first, other] + polls[:-1], none, {"polls all"}
    yield "a Hear that does not stand behind its Report", script, [link, first, Report(T1), other, Hear(1), Report(T1), Hear(2)], none, {"polls all"}
    yield "a poll of another entity", script, [link, first, other, Report(A2), Hear(1), Report(T1), Hear(2)], none, {"polls all"}


def logs():
    submit = Submit(UP, FIRST)
    events = [submit, Check()]
    script = Script("app up", "propose dc1 a1.firmware=2", "await dc1", "read dc1 a1.firmware", "readat dc1 5 a1.firmware", "app te",
                    "read dc1 a1.firmware", "read dc1 a1.firmware", "readat dc1 1 a1.firmware")
    own, others = [seen(1, 2), seen_none(5, 1)], [seen(0, 1), seen(1, 2), seen_at(1, 2)]
    yield "all is seen", script, events, (own, others), set()
    yield "a line less", script, events, (own, others[:-1]), {"logs all"}
    yield "a line more", script, events, (own + own[-1:], others), {"logs all"}
    yield "another variable", script, events, ([Seen(0, A1, CONFIG, 1, 1), own[1]], others), {"logs all"}
    yield "another entity", script, events, ([Seen(0, A2, FIRMWARE, 1, 1), own[1]], others), {"logs all"}
    yield "two lines swapped", script, events, (own, [others[0], others[2], others[1]]), {"logs all"}
    yield "a later version's value", script, events, (own, [seen(0, 2), others[1], others[2]]), {"sees truly"}
    yield "an earlier version's value", script, events, ([seen(1, 1), own[1]], others), {"sees truly"}
    yield "a version that there is not", script, events, ([seen(2, 2), own[1]], others), {"sees truly"}
    yield "a version that was not asked for", script, events, (own, others[:2] + [seen_at(0, 1)]), {"sees truly"}
    yield "a value that the version has not", script, events, (own, others[:2] + [seen_at(1, 1)]), {"sees truly"}
    yield "no version, and another is asked for", script, events, ([own[0], seen_none(6, 1)], others), {"sees truly"}
    yield "no version though there is one", script, events, (own, others[:2] + [seen_none(1, 1)]), {"sees truly"}
    yield "a latest version that there is not", script, events, ([own[0], seen_none(5, 2)], others), {"sees truly"}
    yield "a version that falls", script, events, (own, [seen(1, 2), seen(0, 1), others[2]]), {"sees no less"}
    yield "a version below what was awaited", script, events, ([seen(0, 1), own[1]], others), {"sees awaited"}
    yield "a latest below what was awaited", script, events, ([own[0], seen_none(5, 0)], others), {"sees awaited"}
    free = Script("app up", "propose dc1 a1.firmware=2", "readat dc1 7 a1.firmware", "read dc1 a1.firmware", "readat dc1 8 a1.firmware")
    yield "a latest, and a version behind it", free, events, ([seen_none(7, 1), seen(1, 2), seen_none(8, 1)],), set()
    yield "a version below a latest before it", free, events, ([seen_none(7, 1), seen(0, 1), seen_none(8, 1)],), {"sees no less"}
    yield "a latest that falls", free, events, ([seen_none(7, 1), seen(1, 2), seen_none(8, 0)],), {"sees no less"}
    refused = Script("app up", "propose dc1 a1.firmware=2", "propose dc1 a2.firmware=2", "await dc1", "read dc1 a1.firmware")
    checked = [submit, Submit(UP, rows_of("a2.firmware=2")), Check(), Check()]
    yield "what was refused is no version", refused, checked, ([seen(1, 2)],), set()


# A right report of two applications, and what is written in the place of a line of it: nothing where the line is left out.

REPORTED = ("app up", "lock dc1 a2 low", "propose dc1 a1.firmware=2", "propose dc1 a2.firmware=2", "await dc1", "read dc1 a1.firmware",
            "app te", "lock dc1 a2 low", "poll dc1 a1", "readat dc1 9 a1.firmware")
REPORT = """\
statesman report 1
group dc1
version 1
entries 8
lock up a2 low granted
lock te a2 low held up
receipt 1 up accepted 1
receipt 2 up refused broken t1 t2 cutoff need 10 has 0 side t1
target a1.firmware=2
unsettled a1
wire commands 0 reports 1 stale 0 old 0
promises 1 start 1 now 1
read up dc1 a1.firmware version 1 value 2
read te dc1 a1.firmware at 9 none latest 0
end
"""
WRONG_LINES = (
    ("version 1", "version 2", "counts versions"),
    ("version 1", "version 0", "counts versions"),
    ("entries 8", "entries 6", "counts entries"),
    ("entries 8", "entries 1000", "counts entries"),
    ("lock up a2 low granted", None, "asks for locks"),
    ("lock up a2 low granted", "lock up a2 high granted", "asks for locks"),
    ("lock te a2 low held up", None, "asks for locks"),
    ("lock te a2 low held up", "lock te a2 low granted", "asks for locks"),
    ("lock te a2 low held up", "lock te a2 low held te", "asks for locks"),
    ("lock te a2 low held up", "unlock te a2 low notyours up", "asks for locks"),
    ("receipt 1 up accepted 1", "receipt 2 up accepted 1", "decides all"),
    ("receipt 1 up accepted 1", "receipt 1 te accepted 1", "decides all"),
    ("receipt 1 up accepted 1", "receipt 1 up accepted 2", "counts versions"),
    ("receipt 2 up refused broken t1 t2 cutoff need 10 has 0 side t1", None, "decides all"),
    ("target a1.firmware=2", None, "shows the target"),
    ("target a1.firmware=2", "target a1.firmware=3", "shows the target"),
    ("wire commands 0 reports 1 stale 0 old 0", "wire commands 0 reports 0 stale 0 old 0", "counts entries"),
    ("promises 1 start 1 now 1", "promises 1 start 0 now 1", "counts promises"),
    ("read up dc1 a1.firmware version 1 value 2", None, "logs all"),
    ("read up dc1 a1.firmware version 1 value 2", "read up dc1 a1.config version 1 value 1", "logs all"),
    ("read up dc1 a1.firmware version 1 value 2", "read up dc1 a1.firmware version 1 value 1", "sees truly"),
    ("read up dc1 a1.firmware version 1 value 2", "read up dc1 a1.firmware version 0 value 1", "sees awaited"),
    ("read te dc1 a1.firmware at 9 none latest 0", "read te dc1 a1.firmware at 9 none latest 2", "sees truly"),
    ("read te dc1 a1.firmware at 9 none latest 0", "read te dc1 a1.firmware at 8 none latest 0", "sees truly"),
)
UNREADABLE_LINES = (
    ("statesman report 1", "statesman report 2"), ("group dc1", "group dc2"), ("entries 8", None), ("end", None),
    ("target a1.firmware=2", "promises 1 start 1 now 1"), ("wire commands 0 reports 1 stale 0 old 0", "wire commands 0"),
    ("read te dc1 a1.firmware at 9 none latest 0", "read up dc1 a1.firmware at 9 none latest 0\nread te dc1 a1.firmware at 1 value 2\n"
     "read up dc1 a1.firmware at 1 value 2"),
)


def check_wrong_reports():
    document = read_document(text_of(*NETWORK, *REPORTED))
    assert wrong_in_report(document, *read_report(document, REPORT)) == []
    for line, other, point in WRONG_LINES:
        text = with_line(line, other)
        points = {each.point for each in wrong_in_report(document, *read_report(document, text))}
        assert points == {point}, (line, other, points)
    for line, other in UNREADABLE_LINES:
        try:
            read_report(document, with_line(line, other))
        except Unreadable:
            continue
        assert False, (line, other)
    print("%d wrong reports are refused" % (len(WRONG_LINES) + len(UNREADABLE_LINES)))


def with_line(line, other):
    assert REPORT.count(line + "\n") == 1, line
    return REPORT.replace(line + "\n", "" if other is None else other + "\n")


def check_most():
    """docs/DEFINITIONS.md: 1 of a lock, 144 of a settle of 2 rounds on the 8 entities, 3 of a proposal, 64 of an await."""
    script = Script("app up", "lock dc1 a1 low", "settle dc1 2", "propose dc1 a1.firmware=2", "await dc1", "read dc1 a1.firmware")
    shares = [share(GROUP, command) for command in script.document.applications[0].commands]
    assert shares == [1, 144, 3, 64, 0], shares
    assert most(script.document, 0) == 212 + 64, most(script.document, 0)


def main():
    parser = argparse.ArgumentParser(prog="check_carried_out", description=__doc__)
    parser.add_argument("--cases", type=int, default=1000, help="how many documents (1000)")
    parser.add_argument("--seconds", type=float, default=60, help="after so many seconds no new document begins (60)")
    options = parser.parse_args()
    check_wrong_runs()
    check_wrong_reports()
    check_most()
    check_free_runs(options.cases, options.seconds)


if __name__ == "__main__":
    main()
