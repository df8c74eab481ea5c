"""Shows what the cases can find: each misreading is planted in a copy of the second reading, and the first case that tells it from
the right one is printed: `python3 tools/second_reading/planted_misreadings.py --cases 2000`. No program is needed.

A misreading is a file, a text that stands in it once, and another text. One in what judges runs is told where `check_carried_out.py`
fails on it, and one in what a page shows where a picture of `picture.py` is another. A copy that ends with an exception tells nothing.
The exit status is 1 where nothing tells one. Those of `roll` and `revert` stand in `planted_plans.py`.
"""

import argparse
import os
import shutil
import subprocess
import sys
import tempfile
import time
from contextlib import contextmanager

sys.dont_write_bytecode = True

from endings import small_edges  # noqa: E402
from planted_plans import PLAN_MISREADINGS  # noqa: E402

HERE = os.path.dirname(os.path.abspath(__file__))
FEW_PICTURES = 40

MISREADINGS = (
    ("standing.py", "command.stamp > fence else", "command.stamp >= fence else", "a command begins again at the same stamp"),
    ("standing.py", "report.number > seen else", "report.number >= seen else", "a report is taken twice"),
    ("standing.py", "not report.is_busy and report.fence", "report.fence", "a busy report renews its entity"),
    ("standing.py", "report.fence == self.stamps[entity] and report.values", "report.values", "an old report renews its entity"),
    ("standing.py", "report.values != self.target[entity]:", "True:", "each report renews its entity"),
    ("standing.py", "if is_busy or values[POWER] == 0:", "if values[POWER] == 0:", "a busy entity keeps its level"),
    ("standing.py", "0 if entity.is_link else min(health, 1)", "min(health, 1)", "a link without power has level 1"),
    ("standing.py", "values[ROUTING] == 1 and level == 5", "level == 5", "a drained device carries"),
    ("standing.py", "for priority in (\"high\", \"low\"):", "for priority in (\"low\", \"high\"):", "the low lock is stronger"),
    ("standing.py", "differing[0] if differing", "differing[-1] if differing", "the highest variable governs"),
    ("standing.py", "for entity in altered(self.target, rows):", "for entity in {row.entity for row in rows}:",
     "an acceptance stamps what it does not alter"),
    ("standing.py", "agent.values, agent.is_busy = agent.work, False", "agent.is_busy = False", "a finish leaves the values"),
    ("judging.py", "has < needs:", "has <= needs:", "a row needs more than its level"),
    ("judging.py", "ROUTING: 4}", "ROUTING: 3}", "routing needs level 3"),
    ("judging.py", "LEVEL_OF_ENDS = 4", "LEVEL_OF_ENDS = 3", "a link's ends need level 3"),
    ("judging.py", "if row.variable == IFACE:", "if True:", "a link's power needs the link's level"),
    ("judging.py", "lack_of(standing.group, standing.observed, with_rows, row)",
     "lack_of(standing.group, standing.observed, standing.target, row)", "power is looked for in the target without the rows"),
    ("judging.py", "before - altered(standing.target, rows)", "before - {row.entity for row in rows}",
     "a row that alters nothing takes its entity away"),
    ("judging.py", "holder is not None and holder != application", "holder is not None", "the holder is barred too"),
    ("promises.py", "-(-promise.percentage * least // 100)", "promise.percentage * least // 100", "a need is rounded down"),
    ("promises.py", "if promise.second not in reached(edges, promise.first):", "if False:", "a promise of 0 percent always holds"),
    ("promises.py", "shared &= inside", "shared = inside", "any least cut is the least side"),
    ("scripts.py", "([] if is_kept else [turn]) + [line.number for line in lines if line.to_turn == turn]",
     "[line.number for line in lines if line.to_turn == turn] + ([] if is_kept else [turn])", "what was held arrives first"),
    ("scripts.py", "any(line.word in (\"drop\", \"hold\")", "any(line.word in (\"drop\",)", "a held message arrives at its turn too"),
    ("scripts.py", "if line.to_turn == turn]", "if line.to_turn == turn][:1]", "one held message arrives at a turn"),
    ("scripts.py", "        if isinstance(reply, Sent):\n            for number in arrivals",
     "        if not isinstance(reply, Sent):\n            return\n        if isinstance(reply, Sent):\n            for number in arrivals",
     "a turn ends where nothing was sent"),
    ("scripts.py", "            for entity in unsettled:", "            for entity in filter(lambda each: not standing.is_settled(each), unsettled):",
     "a round leaves out what settled on its way"),
    ("scripts.py", "any(owner == application for owner, _ in standing.pending())", "standing.pending()", "an await decides all"),
    ("scripts.py", "values = list(standing.agents[command.entity].values)", "values = list(standing.target[command.entity])",
     "a failure takes the target's values"),
    ("scripts.py", "command.version <= standing.version()", "command.version < standing.version()", "the latest version is none"),
    ("scripts.py", "            if len(standing.pending()) >= MOST_PENDING:", "            if len(standing.pending()) > MOST_PENDING:",
     "65 proposals wait"),
    ("scripts.py", " and reply.row.value != standing.observed[entity].values[reply.row.variable]", "", "what is blocked as it is is withdrawn"),
    ("standing.py", "if not rows or lack_of(self.group, self.observed, self.target, self.governing_row(entity)) is None:", "if not rows:",
     "what can be set is withdrawn"),
    ("standing.py", "for place, value in enumerate(seen) if value != target[place])", "for place, value in enumerate(seen))",
     "a value that is the target's goes back"),
    ("standing.py", "            self.overlay(reply.rows)", "            self.target = target_with(self.target, reply.rows)", "a withdrawal is no version"),
    ("report.py", "now = standing.actual()", "now = standing.sure()", "promises are counted in the sure set"),
    ("reading.py", "number + (word == \"hold\")", "number", "a message may be held to its own turn"),
    ("reading.py", "        if of_group.decode() != group.name:\n                raise Fault(\"cross\")", "        pass", "another group's end is taken"),
    ("reading.py", "{promise.first, promise.second} == {first, second}", "(promise.first, promise.second) == (first, second)",
     "a pair may be promised in the other order"),
    ("reading.py", "if (entity, variable) in was_set:", "if False:", "a variable may be set twice"),
    ("reading.py", "            raise Fault(\"value\")\n        return VARIABLES[entity.is_link]",
     "            return 0\n        return VARIABLES[entity.is_link]", "a variable of another kind of entity is its power"),
    ("printing.py", "if value != 1:", "if True:", "an opening value of 1 is printed too"),
    ("printing.py", "if group.opening_health(entity) != entity.greatest_health():", "if entity in group.healths:",
     "a health that is the greatest is printed too"),
    ("journal_reading.py", "number_of(tokens[0]) != len(entries) + 1", "number_of(tokens[0]) is None", "entries have any numbers"),
    ("journal_reading.py", "reply[0] not in REPLIES[event[0]]", "reply[0] not in REPLY_COUNTS", "an event has any reply"),
    ("journal_reading.py", "number <= self.number", "number < self.number", "a journal stands twice"),
    ("journal_reading.py", "device <= devices[-1]", "device < devices[-1]", "a side has a device twice"),
    ("journal_reading.py", "(promise.first, promise.second) == ends", "{promise.first, promise.second} == set(ends)",
     "a promise is named in the other order"),
    ("journal_reading.py", "b\"broken\": (13, None)", "b\"broken\": (12, None)", "a side of nobody"),
    ("journal_reading.py", "        if len(named) < len(entity.variables()):\n            raise Fault(\"value\")\n", "",
     "a failure leaves values out"),
    ("replaying.py", "            return number\n        standing.enter(event)", "            return number + 1\n        standing.enter(event)",
     "the entry behind the illegal one is named"),
    ("journal.py", "type(self) is type(other) and", "", "replies are compared by their numbers alone"),
) + PLAN_MISREADINGS

# Planted in what judges runs, which `check_carried_out.py` has to tell.
MISJUDGEMENTS = (
    ("carried_out.py", "for row in rows:\n                if (row.entity", "for row in rows[:1]:\n                if (row.entity",
     "a proposal has one row"),
    ("carried_out.py", "        if found != wanted:\n            place", "        if found[:len(wanted)] != wanted:\n            place",
     "requests that were made up are let through"),
    ("carried_out.py", "        if found != wanted:\n            place", "        if found != wanted[:len(found)]:\n            place",
     "the last commands may be dropped"),
    ("carried_out.py", "        if found != wanted:\n            place", "        if set(found) != set(wanted):\n            place",
     "requests stand in any order"),
    ("carried_out.py", "decision is None or place < decision", "decision is None", "a request may stand before the decision"),
    ("carried_out.py", "            awaited = proposals\n\n\n#", "            awaited = min(proposals, 1)\n\n\n#", "the first ticket alone is awaited"),
    ("carried_out.py", "before = max(asked, decision)", "before = asked", "turns before the decision count"),
    ("carried_out.py", "before = max(asked, decision)", "before = decision", "turns before the requests count"),
    ("carried_out.py", "journal.settled_until.get(entity, -1) >= before", "entity in journal.settled_until",
     "it is enough that an entity was settled at the opening"),
    ("carried_out.py", "journal.settled_until.get(entity, -1) >= before", "journal.settled_until.get(entity, -1) == len(journal.entries)",
     "an entity has to be settled at the end"),
    ("carried_out.py", "if count < awaited.command.rounds:", "if count < 1:", "one turn is enough"),
    ("carried_out.py", "if journal.is_turn(place, entity)]", "if journal.stand_at(place, [Send(entity)])]", "a Send is a turn"),
    ("carried_out.py", "return self.stand_at(place + 1, self.arrivals(\"report\", Hear, turn))", "return True", "a report is a poll"),
    ("carried_out.py", "        middle = self.arrivals(\"command\", Deliver, reply.number) if isinstance(reply, Sent) else []",
     "        middle = []", "no command arrives in a turn"),
    ("carried_out.py", "    values = list(before)\n", "    values = list(event.values)\n", "a failure changes other variables too"),
    ("carried_out.py", "return event == Fail(command.entity, command.health, tuple(values))", "return list(event.values) == values",
     "a failure has any health"),
    ("carried_out.py", "return tuple(map(len, lists)) in ways", "return bool(ways)", "failures may be missing"),
    ("carried_out.py", "seen.version <= history.version() and history", "history", "a version that there is not is seen"),
    ("carried_out.py", "is_true = seen.version == command.version and is_value_at", "is_true = is_value_at", "another version is answered"),
    ("carried_out.py", "seen.latest < seen.version and seen.latest <= history.version()", "seen.latest <= history.version()",
     "there is no version though there is one"),
    ("carried_out.py", "if seen.version < max(version, latest):", "if seen.version < latest:", "versions may fall"),
    ("carried_out.py", "if seen.version < max(version, latest):", "if seen.version < version:", "a version may be below a latest before it"),
    ("carried_out.py", "                if seen.latest < latest:", "                if False:", "a latest may fall"),
    ("carried_out.py", "            if has < least:", "            if False:", "what was awaited is not seen"),
    ("carried_out.py", "are_accepted[:tickets[-1]]) if", "are_accepted) if", "what was not awaited has to be seen"),
    ("most.py", "(command.rounds + 1)", "command.rounds", "a settle has no further round"),
    ("judging_reports.py", "    if any(waiting):", "    if False:", "requests of locks may be missing"),
    ("judging_reports.py", "        return Held(holder)\n", "        return Granted()\n", "a lock is granted twice"),
)

# Planted in what a page of the player shows, which the picture of a case has to tell.
MISPICTURED = (
    ("picture.py", "([0] + makers)[past.observed[entity].number]", "([0] + makers)[-1]", "an entity is known since its newest report, though none heard it"),
    ("picture.py", "return ([0] + makers)[past.observed[entity].number]",
     "return max((number for number, entry in past.numbered(Hear) if type(entry.reply).__name__ == \"Taken\""
     " and past.reports[entry.event.number - 1].entity == entity), default=0)",
     "an entity is known since the entry that heard its report"),
    ("picture.py", "None if seen.is_busy or seen.values[POWER] == 0 else", "None if seen.is_busy else", "a report of an entity without power tells its health"),
    ("picture.py", "past.at(known_since(past, entity)).health(entity)", "past.health(entity)", "the health that is told is the one that the entity has now"),
    ("picture.py", "setters(past, entity, variable)[-1]", "setters(past, entity, variable)[0]", "the first proposal that set a variable is named"),
    ("picture.py", "enumerate(past.overlays_by, 1)", "enumerate(past.proposals, 1)", "a refused proposal has a version"),
    ("picture.py", "failures and past.health(entity) < GREATEST[entity.is_link]", "failures", "a failure that was mended is named"),
)


def main():
    parser = argparse.ArgumentParser(prog="planted_misreadings", description=__doc__)
    parser.add_argument("--cases", type=int, default=2000, help="how many cases for each (2000)")
    parser.add_argument("--seconds", type=float, default=600, help="after so many seconds no further one is planted (600)")
    parser.add_argument("--only", default="", metavar="TEXT", help="those alone whose description has this text")
    options = parser.parse_args()
    end = time.monotonic() + options.seconds
    tried = [misreading for misreading in MISREADINGS if options.only in misreading[3]]
    untold, count = tell_misreadings(tried, options.cases, end)
    for file, old, new, what in MISJUDGEMENTS:
        if options.only in what and time.monotonic() < end:
            is_told = is_misjudgement_told(file, old, new)
            untold, count = untold + (not is_told), count + 1
            print("%s: %s" % (what, "told" if is_told else "not told"), flush=True)
    with tempfile.TemporaryDirectory() as folder:
        tried = [misreading for misreading in MISPICTURED if options.only in misreading[3]]
        if tried:
            write_pictures(HERE, folder)
        for file, old, new, what in tried:
            if time.monotonic() < end:
                seed = first_picture(file, old, new, folder)
                untold, count = untold + (seed is None), count + 1
                print("%s: %s" % (what, "no picture" if seed is None else "the picture of seed %d" % seed), flush=True)
    print("%d planted, %d that nothing tells" % (count, untold))
    return 1 if untold else 0


def tell_misreadings(tried, cases, end):
    """Prints of each misreading the first case that tells it; answers how many none tells, and how many were planted."""
    right, untold, edges = [], 0, small_edges()
    ahead = start(HERE, cases)
    for count, (file, old, new, what) in enumerate(tried):
        if time.monotonic() > end:
            break
        place = first_place(file, old, new, cases + len(edges), right, ahead)
        untold += place is None
        print("%s: %s" % (what, place_text(edges, place)), flush=True)
    else:
        count = len(tried)
    ahead.kill()
    return untold, count


def is_misjudgement_told(file, old, new):
    with planted(file, old, new) as copy:
        done = subprocess.run([sys.executable, os.path.join(copy, "check_carried_out.py"), "--cases", "200"], stdout=subprocess.DEVNULL,
                              stderr=subprocess.DEVNULL, check=False)
    return done.returncode != 0


def write_pictures(folder, pictures):
    subprocess.run([sys.executable, os.path.join(folder, "picture.py"), "--write", pictures, "--cases", str(FEW_PICTURES)], check=True)


def first_picture(file, old, new, right):
    """The least seed whose picture the copy with the misreading writes otherwise."""
    with planted(file, old, new) as copy, tempfile.TemporaryDirectory() as folder:
        write_pictures(copy, folder)
        names = [name for name in os.listdir(right) if name.endswith(".json") and not is_same_file(os.path.join(right, name), os.path.join(folder, name))]
    return min((int(name[len("case"):-len(".json")]) for name in names), default=None)


def is_same_file(first, second):
    with open(first) as one, open(second) as other:
        return one.read() == other.read()


def place_text(edges, place):
    if place is None:
        return "no case"
    return "case %d" % (place - len(edges) + 1) if place >= len(edges) else "the document %r" % edges[place][0]


def start(folder, cases):
    return subprocess.Popen([sys.executable, os.path.join(folder, "endings.py"), str(cases)], stdout=subprocess.PIPE,
                            stderr=subprocess.DEVNULL)


def first_place(file, old, new, cases, right, ahead):
    """The first place at which the copy with the misreading ends otherwise; `right` grows with what the right one ends with."""
    with planted(file, old, new) as copy:
        reader = start(copy, cases)
        try:
            for place in range(cases):
                if place == len(right):
                    right.append(ahead.stdout.readline())
                line = reader.stdout.readline()
                if line != right[place]:
                    # A copy that ends with an exception tells nothing.
                    return place if line else None
        finally:
            reader.kill()
            reader.wait()
    return None


@contextmanager
def planted(file, old, new):
    """The folder of a copy in which the text that stands there once is replaced."""
    with tempfile.TemporaryDirectory() as folder:
        copy = os.path.join(folder, "copy")
        shutil.copytree(HERE, copy, ignore=shutil.ignore_patterns("__pycache__"))
        path = os.path.join(copy, file)
        with open(path) as source:
            text = source.read()
        assert text.count(old) == 1, (file, old, text.count(old))
        with open(path, "w") as source:
            source.write(text.replace(old, new))
        yield copy


if __name__ == "__main__":
    sys.exit(main())
