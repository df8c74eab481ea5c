#!/usr/bin/env python3
"""Says what of a document's network can be changed alone, and what bars the rest: `python3 tools/what_if.py examples/pod.txt`.

Each device and link is a candidate: an application of its own proposes one row on it, by a `serial` of the program for each, several at a
time. They find the network as the document opens it, or with --behind as its scripts leave it. Without an option a device's config and a
link's iface are asked for. Where no value is given it is another than the variable has: of power and routing the other one, else one more.
Nothing here is proved, and nothing is judged here: what is said is what the program answered.
"""

import argparse
import sys
from typing import NamedTuple

sys.dont_write_bytecode = True

from operators.asking import (  # noqa: E402
    AT_ONCE, OK, BadInput, add_program, answer_of, ask, each_at_once, read_file, run_tool, shown, told_fault,
)
from operators.sentences import cause_words  # noqa: E402
from operators.documents import DEVICE_VARIABLES, LINK_VARIABLES, SWITCHED, assignment_parts, read_document, text_of  # noqa: E402
from operators.forms import GREATEST_NUMBER  # noqa: E402
from operators.reports import read_report  # noqa: E402
from operators.texts import NUMBER, did_you_mean, many  # noqa: E402


class Asked(NamedTuple):
    """A variable that is asked for, with the value, or None where each variable shall have another than it has."""

    variable: str
    value: int


class Candidate(NamedTuple):
    group: str
    entity: str
    variable: str
    value: int
    has: int


def main():
    options = read_options()
    data = read_file(options.document)
    answer_of(options.program, ["check"], options.document, data)
    asking = Asking(options, data)
    candidates = asking.candidates()
    causes = each_at_once(asking.cause, candidates, options.at_once)
    for name in asking.groups():
        tell(name, options, [(each, cause) for each, cause in zip(candidates, causes) if each.group == name])
    return 0


def read_options():
    parser = argparse.ArgumentParser(prog="what_if", description=__doc__, formatter_class=argparse.RawDescriptionHelpFormatter)
    parser.add_argument("document", metavar="DOCUMENT", help="a document, or - for standard input")
    parser.add_argument("--device", metavar="VAR[=N]", action="append", type=asked_of(DEVICE_VARIABLES), help="a variable of each device; it may stand again")
    parser.add_argument("--link", metavar="VAR[=N]", action="append", type=asked_of(LINK_VARIABLES), help="a variable of each link; it may stand again")
    parser.add_argument("--group", metavar="NAME", action="append", help="this group alone; it may stand again")
    parser.add_argument("--entity", metavar="NAME", action="append", help="this device or link alone; it may stand again")
    parser.add_argument("--behind", action="store_true", help="ask behind the document's scripts, and not at its opening")
    parser.add_argument("--each", action="store_true", help="a line for each candidate, with the words of the receipt")
    parser.add_argument("--at-once", metavar="N", type=positive, default=AT_ONCE, help="so many at a time (as many as there are processors)")
    add_program(parser)
    options = parser.parse_args()
    if options.device is None and options.link is None:
        options.device, options.link = [Asked("config", None)], [Asked("iface", None)]
    return options


def asked_of(variables):
    def read(text):
        variable, equals, value = text.partition("=")
        if variable not in variables:
            raise argparse.ArgumentTypeError("'%s' is none of %s%s" % (variable, ", ".join(variables), did_you_mean(variable, variables)))
        if equals and not (NUMBER.match(value) and int(value) <= GREATEST_NUMBER):
            raise argparse.ArgumentTypeError("'%s' is no number from 0 to %d" % (value, GREATEST_NUMBER))
        return Asked(variable, int(value) if equals else None)
    return read


def positive(text):
    if not text.isdecimal() or int(text) == 0:
        raise argparse.ArgumentTypeError("'%s' is no number from 1" % text)
    return int(text)


class Asking:
    """Asks the program for candidates of a document."""

    def __init__(self, options, data):
        self.options, self.document = options, read_document(data)
        self.targets = self.targets_behind(data) if options.behind else {}
        self.application = self.new_name()

    def targets_behind(self, data):
        """The values of the target that are not those of the opening, behind the scripts."""
        report = read_report("the report", answer_of(self.options.program, ["serial"], self.options.document, data))
        rows = [(group["name"], *assignment_parts(row)) for group in report["groups"] for row in group["targets"]]
        return {row[:3]: row[3] for row in rows}

    def new_name(self):
        """A name that no application of the document has."""
        names = ["probe"] + ["probe%d" % number for number in range(2, 40)]
        return next(name for name in names if name not in self.document.applications)

    def groups(self):
        names = list(dict.fromkeys(self.options.group or self.document.groups))
        for name in names:
            if name not in self.document.groups:
                raise BadInput("%s: no group '%s'%s" % (shown(self.options.document), name, did_you_mean(name, self.document.groups)))
        return names

    def candidates(self):
        groups = [self.document.groups[name] for name in self.groups()]
        names = [name for group in groups for name in group.entities()]
        for name in self.options.entity or ():
            if name not in names:
                raise BadInput("%s: no device or link '%s'%s" % (shown(self.options.document), name, did_you_mean(name, names)))
        return [candidate for group in groups for candidate in self.candidates_of(group)]

    def candidates_of(self, group):
        for entity in group.entities():
            if self.options.entity and entity not in self.options.entity:
                continue
            for variable, value in (self.options.link if entity in group.links else self.options.device) or ():
                has = self.targets.get((group.name, entity, variable), group.opening(entity, variable))
                yield Candidate(group.name, entity, variable, other_than(variable, has) if value is None else value, has)

    def cause(self, candidate):
        """Why the program refuses a candidate: the words behind `refused`, or none where it accepts."""
        answer = ask(self.options.program, ["serial"], text_of(self.lines(candidate)))
        if answer.status != OK:
            what = told_fault("the document with one application more", text_of(self.lines(candidate)), answer.text)
            raise BadInput("%s: can't be asked: %s" % (shown(self.options.document), what))
        report = read_report("the report", answer.text)
        told = next(group for group in report["groups"] if group["name"] == candidate.group)
        receipt = next(line for line in told["receipts"] if line.split(" ")[1] == self.application).split(" ")
        return receipt[3:] if receipt[2] == "refused" else []

    def lines(self, candidate):
        row = "propose %s %s.%s=%d" % (candidate.group, candidate.entity, candidate.variable, candidate.value)
        if not self.options.behind:
            return [*self.document.groups[candidate.group].texts, "app " + self.application, row]
        # The application is the last in each round, and has nothing to await: so it proposes behind all others' commands.
        waits = ["await " + candidate.group] * (self.document.rounds() - 1)
        order = ["order " + name for name in self.document.order]
        return [*self.document.network_texts(), *self.document.application_texts(), "app " + self.application, *waits, row, *order]


def other_than(variable, has):
    if variable in SWITCHED:
        return 1 - has
    return has + 1 if has < GREATEST_NUMBER else has - 1


def tell(name, options, answers):
    free = [each for each, cause in answers if not cause]
    where = "behind its scripts" if options.behind else "as it opens"
    print("group %s, %s: %d of %s would be accepted, each alone" % (name, where, len(free), many(len(answers), "row")))
    if options.each:
        for each, cause in answers:
            print("%s: %s" % (row_of(each), " ".join(["refused", *cause]) if cause else "accepted" + unchanged(each)))
        return
    for what, entities in in_sets((key_of(each), each.entity) for each in free):
        print("  accepted: %s on %s" % (what, ", ".join(entities)))
    for what, entities in in_sets((("%s on" % key_of(each), cause_words(cause)), each.entity) for each, cause in answers if cause):
        print("  refused: %s %s: %s" % (what[0], ", ".join(entities), what[1]))


def row_of(candidate):
    return "%s.%s=%d" % (candidate.entity, candidate.variable, candidate.value)


def key_of(candidate):
    return "%s = %d%s" % (candidate.variable, candidate.value, unchanged(candidate))


def unchanged(candidate):
    return " (as it is)" if candidate.value == candidate.has else ""


def in_sets(pairs):
    """The second of some pairs by their first, in the order in which each first came."""
    sets = {}
    for key, value in pairs:
        sets.setdefault(key, []).append(value)
    return sets.items()


if __name__ == "__main__":
    sys.exit(run_tool(main))
