#!/usr/bin/env python3
"""Says in words what is wrong with documents, and warns of what is hardly meant: `python3 tools/lint.py examples/upgrade.txt`.

A fault is told on standard error, with the word that was meant where one is near; the status is then 2. A warning is a line on standard
output, and the status 1 where there are some; each has a name, by which it can be left out. What is warned of the program tells: it reads
the document, does its scripts by `serial`, and is asked for single proposals.

  opening   a promise fails at the opening, so it bars nothing until it holds
  tor       a script proposes a row on a ToR that is refused at the opening for a promise of this ToR
  lock      an application has a lock in the end
  again     an application proposes on a group again without a settle in between
  unsettled an entity is unsettled in the end
  withdrawn what an entity was to become could not be set any more, and was withdrawn
  full      a journal is full, so the scripts are not done to the end
"""

import argparse
import sys

sys.dont_write_bytecode = True

from operators.asking import (  # noqa: E402
    BAD_END, FULL, BadInput, add_program, answer_of, ask, each_at_once, read_file, run_tool, shown,
)
from operators.sentences import cause_words  # noqa: E402
from operators.documents import read_document, text_of  # noqa: E402
from operators.reports import read_report  # noqa: E402

NAMES = ("opening", "tor", "lock", "again", "unsettled", "withdrawn", "full")


def main():
    options = read_options()
    status = 0
    for path in options.documents:
        status = max(status, lint(options, path))
    return status


def read_options():
    parser = argparse.ArgumentParser(prog="lint", description=__doc__, formatter_class=argparse.RawDescriptionHelpFormatter)
    parser.add_argument("documents", metavar="DOCUMENT", nargs="+", help="documents, or - for standard input")
    parser.add_argument("--without", metavar="NAME", action="append", default=[], choices=NAMES, help="leave out this warning; it may stand again")
    add_program(parser)
    return parser.parse_args()


def lint(options, path):
    """The status of one document, whose faults and warnings are told."""
    try:
        data = read_file(path)
        answer_of(options.program, ["check"], path, data)
        found = sorted(warnings(options, data))
    except BadInput as fault:
        sys.stdout.flush()
        print(fault, file=sys.stderr)
        return BAD_END
    for line, name, words in found:
        print("%s:%d: %s: %s" % (shown(path), line, name, words))
    return 1 if found else 0


def warnings(options, data):
    """The warnings of a document that the program took, each with its line and its name."""
    document = read_document(data)
    found = [*failing_promises(options.program, document), *changed_tors(options.program, document), *proposed_again(document)]
    answer = ask(options.program, ["serial"], data)
    if answer.status == FULL:
        group = document.groups[answer.text.split()[-1]]
        found.append((group.line, "full", "the journal of group %s is full, so the scripts are not done to the end" % group.name))
    else:
        report = read_report("the report", answer.text)
        found += [*kept_locks(document, report), *unsettled(document, report), *withdrawn(document, report)]
    return [warning for warning in found if warning[1] not in options.without]


def failing_promises(program, document):
    """The promises that fail at the opening: the program counts those of a part of them, which is halved until each is known."""
    for group in document.groups.values():
        texts = [text for text in group.texts if not text.startswith("promise ")]

        def failing(promises):
            lines = [*texts, *("promise %s %s %s" % (*each.ends, each.percentage) for each in promises)]
            report = read_report("the report", answer_of(program, ["serial"], "the group", text_of(lines)))
            if report["groups"][0]["start"] == len(promises):
                return []
            middle = len(promises) // 2
            return promises if middle == 0 else failing(promises[:middle]) + failing(promises[middle:])

        for promise in failing(group.promises):
            words = "the promise between %s and %s fails at the opening: it bars nothing until it holds" % promise.ends
            yield promise.line, "opening", words


def changed_tors(program, document):
    """The rows of scripts on a promise's ToR that are refused at the opening for a promise of this ToR."""
    rows = {}
    for application in document.applications.values():
        for command in application.commands:
            for word in command.words[2:] if command.words[0] == "propose" else ():
                if is_promised(document.groups[command.words[1]], word.partition(".")[0]):
                    rows.setdefault((command.words[1], word), command.line)
    causes = each_at_once(lambda row: opening_cause(program, document, *row), rows)
    for (_, row), line, words in zip(rows, rows.values(), causes):
        tor = row.partition(".")[0]
        if words[:1] == ["broken"] and tor in words[1:3]:
            yield line, "tor", "%s is refused at the opening, and as long as a promise of this ToR holds: %s" % (row, cause_words(words))


def is_promised(group, name):
    return any(name in promise.ends for promise in group.promises)


def opening_cause(program, document, name, row):
    """Why a row alone is refused at the opening: the words behind `refused`, or none where it is accepted."""
    lines = [*document.groups[name].texts, "app lint", "propose %s %s" % (name, row)]
    report = read_report("the report", answer_of(program, ["serial"], "the group", text_of(lines)))
    return report["groups"][0]["receipts"][0].split(" ")[3:] if " refused " in report["groups"][0]["receipts"][0] else []


def kept_locks(document, report):
    """The locks that applications have in the end."""
    for told in report["groups"]:
        holders = {}
        for line in told["locks"]:
            word, application, entity, priority, reply, *_ = line.split(" ")
            if reply == "granted":
                holders[entity, priority] = application
            elif reply == "released":
                holders.pop((entity, priority), None)
        for (entity, priority), application in holders.items():
            line = last_line(document.applications[application].commands, ["lock", told["name"], entity, priority])
            yield line, "lock", "%s has the %s lock of %s in the end: nothing gives it back" % (application, priority, entity)


def last_line(commands, words):
    """The line of the last command of these words."""
    return max(command.line for command in commands if command.words == words)


def proposed_again(document):
    """The proposals of an application behind another of its on that group, with no settle in between."""
    for application in document.applications.values():
        waiting = {}
        for command in application.commands:
            word, name = command.words[:2]
            if word == "settle":
                waiting.pop(name, None)
            elif word == "propose":
                if name in waiting:
                    words = "%s proposes on %s again without a settle since line %d: what was accepted there is under way"
                    yield command.line, "again", words % (application.name, name, waiting[name])
                waiting[name] = command.line


def unsettled(document, report):
    """The entities that are unsettled in the end."""
    for told in report["groups"]:
        for entity in told["unsettled"]:
            yield line_of(document, told["name"], entity), "unsettled", "%s of group %s is unsettled in the end" % (entity, told["name"])


def withdrawn(document, report):
    """The entities of which something was withdrawn."""
    for told in report["groups"]:
        for entity in dict.fromkeys(line.split(" ")[1].partition(".")[0] for line in told["withdrawn"]):
            words = "what %s of group %s was to become could not be set any more, and was withdrawn" % (entity, told["name"])
            yield line_of(document, told["name"], entity), "withdrawn", words


def line_of(document, group, entity):
    """The last line of a script that proposes or fails an entity, else that of its group."""
    lines = [line for line, words in commands_of(document) if names_entity(words, group, entity)]
    return max(lines, default=document.groups[group].line)


def commands_of(document):
    return [(command.line, command.words) for application in document.applications.values() for command in application.commands]


def names_entity(words, group, entity):
    if words[0] not in ("propose", "fail") or words[1] != group:
        return False
    return entity in [word.partition(".")[0] for word in words[2:]]


if __name__ == "__main__":
    sys.exit(run_tool(main))
