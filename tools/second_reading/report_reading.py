"""Reads a report back, as text or as JSON, so that it can be judged."""

import json
import re

from report import report_json, text_of_lines
from scripts import Seen, SeenAt


class Unreadable(Exception):
    """A text that is no report of this document, with what is wrong."""


class GroupReport:
    """What a report tells of a group: its lines by their first words, each without it; those of locks whole; and the numbers."""

    def __init__(self):
        self.lines = {word: [] for word in ("receipt", "withdrawn", "target", "unsettled", "lost")}
        self.requests = []
        self.numbers = {}


HEAD = ("group", "version", "entries")
# The order of a group's lines.
PLACES = {word: place for place, word in enumerate(
    HEAD + ("lock", "receipt", "withdrawn", "target", "unsettled", "wire", "promises", "lost"))}
PLACES["unlock"] = PLACES["lock"]

WIRE = re.compile(r"commands (\d+) reports (\d+) stale (\d+) old (\d+)\Z")
PROMISES = re.compile(r"(\d+) start (\d+) now (\d+)\Z")


def read_report(document, text):
    """The `GroupReport` of each group and the log of each application."""
    lines = text.split("\n")
    if lines[:1] != ["statesman report 1"] or lines[-2:] != ["end", ""]:
        raise Unreadable("no report")
    groups, reads = [], []
    for line in lines[1:-2]:
        word, _, rest = line.partition(" ")
        if word == "read":
            reads.append(rest)
        elif word == "group":
            groups.append([(word, rest)])
        elif reads or not groups:
            raise Unreadable("%r stands outside of a group" % line)
        else:
            groups[-1].append((word, rest))
    if [parts[0][1] for parts in groups] != [group.name for group in document.groups]:
        raise Unreadable("other groups")
    return [group_report(parts) for parts in groups], logs_of(document, reads)


def group_report(parts):
    places = [PLACES.get(word, -1) for word, _ in parts]
    if places != sorted(places) or any(place < 0 for place in places):
        raise Unreadable("lines of a group out of order")
    report = GroupReport()
    for word, rest in parts:
        if word in ("lock", "unlock"):
            report.requests.append("%s %s" % (word, rest))
        elif word in report.lines:
            report.lines[word].append(rest)
        elif word in ("wire", "promises"):
            found = (WIRE if word == "wire" else PROMISES).match(rest)
            if found is None:
                raise Unreadable("%s %s" % (word, rest))
            names = ("commands", "reports", "stale", "old") if word == "wire" else ("promises", "start", "now")
            report.numbers.update(zip(names, map(int, found.groups())))
        elif word != "group":
            report.numbers[word] = int(rest)
    if set(report.numbers) != {"version", "entries", "commands", "reports", "stale", "old", "promises", "start", "now"}:
        raise Unreadable("lines of a group are missing")
    return report


def logs_of(document, reads):
    """The log of each application, whose lines stand together and in the order of applications."""
    logs = [[] for _ in document.applications]
    names = [application.name for application in document.applications]
    last = 0
    for line in reads:
        words = line.split(" ")
        application = names.index(words[0]) if words[0] in names else -1
        if application < last:
            raise Unreadable("read %s stands out of order" % line)
        last = application
        logs[application].append(seen_of(document, words[1:]))
    return logs


def seen_of(document, words):
    numbers = [group.name for group in document.groups]
    if words[0] not in numbers:
        raise Unreadable("no group %s" % words[0])
    number = numbers.index(words[0])
    group = document.groups[number]
    name, _, variable = words[1].partition(".")
    entity = group.named[name]
    place = entity.variables().index(variable)
    shape = tuple(words[2::2])
    if shape == ("version", "value"):
        return Seen(number, entity, place, int(words[3]), int(words[5]))
    if shape == ("at", "value"):
        return SeenAt(number, entity, place, int(words[3]), int(words[5]), None)
    if words[2] == "at" and words[4:6] == ["none", "latest"] and len(words) == 7:
        return SeenAt(number, entity, place, int(words[3]), None, int(words[6]))
    raise Unreadable("read %s" % " ".join(words))


def text_of_json(text):
    """The report as text of a report as JSON, which has to be spelled as docs/FORMATS.md spells it."""
    try:
        report = json.loads(text)
        lines = lines_of_json(report)
    except (ValueError, KeyError, TypeError) as other:
        raise Unreadable("no report as JSON: %r" % other) from None
    if report_json(lines) != text:
        raise Unreadable("a report as JSON that is spelled otherwise")
    return text_of_lines(lines)


def lines_of_json(report):
    lines = ["statesman report %d" % report["statesman"]]
    for group in report["groups"]:
        lines += ["group %s" % group["name"], "version %d" % group["version"], "entries %d" % group["entries"]]
        lines += group["locks"]
        for word, key in (("receipt", "receipts"), ("withdrawn", "withdrawn"), ("target", "targets"), ("unsettled", "unsettled")):
            lines += ["%s %s" % (word, line) for line in group[key]]
        lines.append("wire " + " ".join("%s %d" % (word, group["wire"][word]) for word in ("commands", "reports", "stale", "old")))
        lines.append("promises %d start %d now %d" % (group["promises"], group["start"], group["now"]))
        lines += ["lost " + line for line in group["lost"]]
    return lines + ["read " + line for line in report["reads"]] + ["end"]
