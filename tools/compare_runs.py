#!/usr/bin/env python3
"""Compares two reports, as text or as JSON: `python3 tools/compare_runs.py one.txt other.json`.

What two runs of a document decide may come in another order, so proposals, requests of locks and reads are compared by their application
and their number there, and withdrawals by their entity, each group by itself. The order shows in ticket numbers, versions, lengths of
journals and counts of messages, and these are compared with --numbers alone. The status is 0 where nothing differs, 1 where something
does, and 2 for bad input.
"""

import argparse
import sys

sys.dont_write_bytecode = True

from operators.asking import BadInput, read_file, run_tool  # noqa: E402
from operators.reports import read_report  # noqa: E402

ABSENT = "-"


def main():
    options = read_options()
    if options.one == options.other == "-":
        raise BadInput("standard input can be one report alone")
    one, other = (facts_of(read_report(path, read_file(path)), options.numbers) for path in (options.one, options.other))
    differences = list(differences_of(one, other))
    for name, first, second in differences:
        print("%s: %s | %s" % (name, first, second))
    print("%d differ" % len(differences))
    return 1 if differences else 0


def read_options():
    parser = argparse.ArgumentParser(prog="compare_runs", description=__doc__, formatter_class=argparse.RawDescriptionHelpFormatter)
    parser.add_argument("one", metavar="REPORT", help="a report, or - for standard input")
    parser.add_argument("other", metavar="REPORT", help="another report")
    parser.add_argument("--numbers", action="store_true", help="also the numbers that depend on the order of a run")
    return parser.parse_args()


def differences_of(one, other):
    """What is not the same in both, in the order of the first and then of the second."""
    for name in {**one, **other}:
        first, second = one.get(name, ABSENT), other.get(name, ABSENT)
        if first != second:
            yield name, first, second


def facts_of(report, with_numbers):
    """What a report tells, by a name that is the same in another run."""
    facts = {}
    for group in report["groups"]:
        facts["group %s" % group["name"]] = "is there"
        facts.update(group_facts(group, with_numbers))
    counts = {}
    for read in report["reads"]:
        application, name, variable, *seen = read.split(" ")
        key = "%s %s read" % (name, application)
        counts[key] = counts.get(key, 0) + 1
        facts["%s %d" % (key, counts[key])] = "%s %s" % (variable, " ".join(seen if with_numbers else without_version(seen)))
    return facts


def without_version(seen):
    """What a `read` saw, without the version; a `readat` names the version itself, and the latest is a number of the order."""
    if seen[0] == "version":
        return seen[2:]
    return seen[:3] if seen[2:3] == ["none"] else seen


def group_facts(group, with_numbers):
    name = group["name"]
    yield from receipt_facts(name, group["receipts"], with_numbers)
    yield from lock_facts(name, group["locks"])
    yield from withdrawal_facts(name, group["withdrawn"], with_numbers)
    for assignment in group["targets"]:
        variable, _, value = assignment.partition("=")
        yield "%s target %s" % (name, variable), value
    for entity in group["unsettled"]:
        yield "%s unsettled %s" % (name, entity), "yes"
    for pair in group["lost"]:
        yield "%s lost %s" % (name, pair), "yes"
    for word in ("promises", "start", "now"):
        yield "%s %s" % (name, word), group[word]
    if with_numbers:
        for word in ("version", "entries"):
            yield "%s %s" % (name, word), group[word]
        for word, count in group["wire"].items():
            yield "%s wire %s" % (name, word), count


def receipt_facts(name, receipts, with_numbers):
    counts = {}
    for receipt in receipts:
        ticket, application, verdict, *rest = receipt.split(" ")
        counts[application] = counts.get(application, 0) + 1
        told = [verdict, *rest] if with_numbers or verdict == "refused" else [verdict]
        proposal = "%s %s proposal %d" % (name, application, counts[application])
        yield proposal, " ".join(told)
        if with_numbers:
            yield proposal + " ticket", ticket


def withdrawal_facts(name, withdrawals, with_numbers):
    counts = {}
    for line in withdrawals:
        rows = line.partition(" ")[2]
        entity = rows.partition(".")[0]
        counts[entity] = counts.get(entity, 0) + 1
        yield "%s %s withdrawal %d" % (name, entity, counts[entity]), line if with_numbers else rows


def lock_facts(name, locks):
    counts = {}
    for line in locks:
        word, application, entity, priority, *reply = line.split(" ")
        counts[application] = counts.get(application, 0) + 1
        yield "%s %s request %d" % (name, application, counts[application]), "%s %s %s %s" % (word, entity, priority, " ".join(reply))


if __name__ == "__main__":
    sys.exit(run_tool(main))
