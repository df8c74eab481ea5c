"""Reads a report, as text or as JSON. Both become the object that a report as JSON is, which docs/report.schema.json describes."""

import json
import os

from operators.asking import BadInput, shown
from operators.small_schema import faults_of, path_words
from operators.texts import lines_of, worded_lines

SCHEMA = os.path.join(os.path.dirname(os.path.dirname(os.path.dirname(os.path.abspath(__file__)))), "docs", "report.schema.json")

# The lines of a group in order, each with the key that it has in JSON.
KEYS = {
    "group": "name", "version": "version", "entries": "entries", "lock": "locks", "unlock": "locks", "receipt": "receipts",
    "withdrawn": "withdrawn",
    "target": "targets", "unsettled": "unsettled", "wire": "wire", "promises": "promises", "lost": "lost",
}
PLACES = {word: place for place, word in enumerate(KEYS)}
PLACES["unlock"] = PLACES["lock"]
LISTS = ("locks", "receipts", "withdrawn", "targets", "unsettled", "lost")


def read_report(path, data):
    """The report of a file: an object, as the schema describes it."""
    text = data if isinstance(data, str) else data.decode("latin-1")
    if text.lstrip()[:1] == "{":
        return report_of_json(path, text)
    return TextReader(path, text).report()


def schema():
    with open(SCHEMA, encoding="utf-8") as file:
        return json.load(file)


def report_of_json(path, text):
    try:
        report = json.loads(text, object_pairs_hook=object_of)
    except json.JSONDecodeError as error:
        raise BadInput("%s:%d: column %d: no JSON: %s" % (shown(path), error.lineno, error.colno, error.msg)) from None
    except (ValueError, RecursionError) as error:
        raise BadInput("%s: no JSON of a report: %s" % (shown(path), error)) from None
    for place, what in faults_of(schema(), report):
        raise BadInput("%s: no report: %s %s" % (shown(path), path_words(place), what))
    return report


def object_of(pairs):
    """An object, none of whose keys stands twice."""
    keys = [key for key, _ in pairs]
    again = [key for at, key in enumerate(keys) if key in keys[:at]]
    if again:
        raise ValueError("the key '%s' stands twice" % again[0])
    return dict(pairs)


class TextReader:
    """Reads a report as text, and knows which line each part of it came from."""

    def __init__(self, path, text):
        self.path, self.lines = path, lines_of(text.encode("latin-1"))
        self.groups, self.reads, self.place = [], [], 0
        self.came_from = {}

    def report(self):
        self.check_ends()
        for number, line in enumerate(self.lines[1:-1], 2):
            self.take(number, line)
        report = {"groups": self.groups, "reads": self.reads, "statesman": 1}
        for place, what in faults_of(schema(), report):
            self.refuse(self.line_of(place), "%s %s" % (path_words(place), what))
        return report

    def refuse(self, number, what):
        raise BadInput("%s:%d: no report: %s" % (shown(self.path), number, what))

    def line_of(self, path):
        """The line that a part came from: its own, or that of what it is a part of."""
        while path and path not in self.came_from:
            path = path[:-1]
        return self.came_from.get(path, 1)

    def check_ends(self):
        first = self.lines[0] if self.lines else ""
        if [words for _, words in worded_lines("\n".join(self.lines).encode("latin-1"))][:1] == [["statesman", "1"]]:
            self.refuse(1, "this is a document or a printed run, of which `./statesman serial` or `replay` makes a report")
        if first.startswith("fault "):
            self.refuse(1, "this run ended with a fault: %s" % first)
        if first != "statesman report 1":
            self.refuse(1, "the first line of a report is 'statesman report 1'")
        if self.lines[-1] != "end" or len(self.lines) < 2:
            self.refuse(len(self.lines), "the last line of a report is 'end'")

    def take(self, number, line):
        word, _, rest = line.partition(" ")
        if word == "read":
            self.came_from["reads", len(self.reads)] = number
            self.reads.append(rest)
        elif word not in KEYS or self.reads:
            self.refuse(number, "'%s' can't stand here" % line)
        elif word == "group":
            self.came_from["groups", len(self.groups)] = number
            self.groups.append({"name": rest, **{key: [] for key in LISTS}})
            self.place = 0
        else:
            self.take_group_line(number, word, rest, line)

    def take_group_line(self, number, word, rest, line):
        if not self.groups or PLACES[word] < self.place or (PLACES[word] == self.place and KEYS[word] not in LISTS):
            self.refuse(number, "'%s' can't stand here" % line)
        self.place = PLACES[word]
        group, key = self.groups[-1], KEYS[word]
        path = ("groups", len(self.groups) - 1, key)
        if key in LISTS:
            self.came_from[(*path, len(group[key]))] = number
            group[key].append(line if key == "locks" else rest)
            return
        self.came_from[path] = number
        if word == "wire":
            group["wire"] = self.numbers(number, rest)
        elif word == "promises":
            group.update(self.numbers(number, line))
        else:
            group[key] = self.number(number, rest)

    def numbers(self, line, text):
        words = text.split(" ")
        if len(words) % 2:
            self.refuse(line, "'%s' is not of its form" % text)
        return {word: self.number(line, number) for word, number in zip(words[::2], words[1::2])}

    def number(self, line, text):
        if not (text.isascii() and text.isdigit() and len(text) <= 10 and (text == "0" or text[0] != "0")):
            self.refuse(line, "'%s' is no number" % text)
        return int(text)
