"""Puts the fault that the program told of an input in words: which word of the line it is, what may stand there, and what was meant."""

import re

from operators.documents import DEVICE_VARIABLES, LINK_VARIABLES, SWITCHED, read_document
from operators.forms import COMMAND_LIMIT, EVENTS, FORMS, GREATEST_NUMBER, PHASE_NAMES, PHASES, slots_of
from operators.texts import NAME, NUMBER, did_you_mean, lines_of, many, words_of, worded_lines

FAULT = re.compile(r"fault input line (\d+) (\w+)\n\Z")
# Of a proposal with as many rows as there may be.
MOST_WORDS = 18
A_NAME = "a name has 1 to 32 letters, digits, '_' and '-', and begins with a letter"


def fault_words(data, text):
    """The line of a fault, or None where it is of no line, and what is wrong."""
    found = FAULT.match(text)
    if found is None:
        return line_of_entry(data, text.split()), other_words(text.split())
    number, kind = int(found[1]), found[2]
    lines = lines_of(data)
    line = lines[number - 1] if number <= len(lines) else None
    return number, kind + ": " + Fault(kind, lines, number, line).words()


def line_of_entry(data, words):
    """The line of the entry that `fault illegal` names, and None of another fault."""
    if words[1:2] != ["illegal"]:
        return None
    group = None
    for line, each in worded_lines(data):
        if each[0] == "journal":
            group = each[1]
        elif group == words[2] and each[0] == words[3]:
            return line
    return None


def other_words(words):
    """A fault that names no line."""
    if words[1:2] == ["long"]:
        return "long: the input has more than 1,048,576 bytes"
    if words[1:2] == ["full"]:
        return "full: the journal of group %s is full, with 200,000 entries" % words[2]
    if words[1:2] == ["illegal"]:
        return "illegal: entry %s of group %s has a reply that the entries before it do not call for" % (words[3], words[2])
    return "the program took it with no report"


class Fault:
    """A line that the program does not take, with what the lines above it declare."""

    def __init__(self, kind, lines, number, line):
        self.kind, self.line = kind, line or ""
        self.is_past_the_end = line is None
        self.tokens = words_of(self.line)
        self.above = lines[:number - 1]
        self.is_journal = any(words_of(each)[:1] == ["journal"] for each in self.above) or (self.tokens[:1] == ["journal"] and kind != "word")
        self.document = read_document("\n".join(self.above).encode("latin-1"))
        self.group = list(self.document.groups.values())[-1] if self.document.groups else None

    def words(self):
        if self.kind in ("byte", "header"):
            return getattr(self, self.kind + "_words")()
        if self.is_journal:
            return self.entry_words()
        try:
            return getattr(self, self.kind + "_words")()
        except (AttributeError, LookupError, StopIteration):
            return self.form_words()

    def form_words(self):
        return "the form of the line is '%s'" % FORMS[self.tokens[0]].text

    def byte_words(self):
        if self.line.startswith("\xef\xbb\xbf"):
            return "the text begins with a byte order mark: save it as ASCII without one"
        place = next(at for at, byte in enumerate(self.line) if byte != "\t" and not " " <= byte <= "~")
        return "column %d has the byte 0x%02x: lines have ASCII alone, comments too" % (place + 1, ord(self.line[place]))

    def header_words(self):
        if self.is_past_the_end:
            return "no line is left that is no comment: a document begins with 'statesman 1'"
        if self.tokens[:2] == ["statesman", "report"]:
            return "this is a report, and a document begins with 'statesman 1'"
        return "the first line has to be 'statesman 1'"

    def word_words(self):
        word = self.tokens[0]
        if word == "journal":
            return "journals are for 'replay' and what reads printed runs"
        if word not in FORMS:
            return "'%s' begins no line%s" % (word, did_you_mean(word, FORMS))
        if word in PHASES[0] and word != "group" and self.group is None:
            return "'%s' stands behind a 'group' line" % word
        phase = next(at for at, words in enumerate(PHASES) if word in words)
        if phase == 2 and not self.document.applications and not self.document.order:
            return "'%s' stands behind an 'app' line" % word
        begun = next((PHASE_NAMES[at] for at in range(3, phase, -1) if self.has_begun(at)), "later lines")
        return "'%s' stands too late: %s have begun above, and the order is %s" % (word, begun, ", then ".join(PHASE_NAMES))

    def has_begun(self, phase):
        return any(words_of(line)[:1] and words_of(line)[0] in PHASES[phase] for line in self.above)

    def count_words(self):
        comment = "; a comment stands on a line of its own" if any("#" in word for word in self.tokens) else ""
        return "%s, where the form of the line is '%s'%s" % (many(len(self.tokens), "word"), FORMS[self.tokens[0]].text, comment)

    # The first word, from left to right, to which the kind applies.

    def name_words(self):
        for word, slot in slots_of(self.tokens):
            for name in self.names_in(word, slot):
                if not NAME.match(name):
                    return "'%s' is no name%s: %s" % (name, what_is_odd(name), A_NAME)
        return self.form_words()

    def names_in(self, word, slot):
        if slot.what in ("assignment", "variable"):
            return [word.split(".")[0]]
        if slot.what == "end":
            return word.split("/", 1)
        return [] if slot.what in ("fixed", "number", "setting") else [word]

    def unknown_words(self):
        for word, slot in slots_of(self.tokens):
            name = word.split("/", 1)[-1] if slot.what == "end" else self.names_in(word, slot)[:1]
            name = name if isinstance(name, str) else "".join(name)
            known = self.known_in(slot)
            if known is not None and name not in known:
                return self.not_declared(name, slot, known)
        return self.form_words()

    def known_in(self, slot):
        """The names that may stand in a slot, or None where it asks for none that is declared."""
        if slot.what == "group":
            return list(self.document.groups)
        if slot.what == "application":
            return list(self.document.applications)
        group = self.group_of_line()
        if group is None or slot.what not in ("entity", "device", "end", "assignment", "variable"):
            return None
        return list(group.devices) if slot.what in ("device", "end") else group.entities()

    def group_of_line(self):
        """The group that the names of the line are of: the one that it names, or the one that was begun."""
        if self.tokens[0] in PHASES[0]:
            return self.group
        return self.document.groups.get(self.tokens[1])

    def not_declared(self, name, slot, known):
        group = self.group_of_line()
        if slot.what in ("device", "end") and name in group.links:
            return "'%s' is a link, and a device stands here" % name
        what = slot.what if slot.what in ("group", "application") else "device" if slot.what in ("device", "end") else "device or link"
        where = "" if slot.what in ("group", "application") else " of group %s" % group.name
        others = [each.name for each in self.document.groups.values() if each is not group and name in each.entities()]
        elsewhere = "; group %s has one" % others[0] if others and where else ""
        return "no %s '%s'%s is declared above%s" % (what, name, where, elsewhere or did_you_mean(name, known))

    def twice_words(self):
        if self.tokens[0] == "open" and self.group:
            return "'%s' was opened already: a variable opens once" % self.tokens[1].split("=")[0]
        if self.tokens[0] == "health":
            return "'%s' has a health already" % self.tokens[1]
        if self.tokens[0] in ("propose", "fail"):
            set_before = [word.split("=")[0] for word in self.tokens]
            again = next(name for at, name in enumerate(set_before) if name in set_before[2:at] and "=" in self.tokens[at])
            return "'%s' is set twice on the line" % again
        named = {"group": self.document.groups, "app": self.document.applications}.get(self.tokens[0])
        name = self.tokens[1]
        line = named[name].line if named is not None else self.group.lines_of_names[name]
        return "'%s' was declared already, on line %d" % (name, line)

    def number_words(self):
        numbers = [(word, slot) for word, slot in slots_of(self.tokens) if slot.what == "number"]
        for word, slot in slots_of(self.tokens):
            if slot.what == "number" and not (is_number(word) and slot.least <= int(word) <= slot.most):
                return out_of_range(word, slot)
            if slot.what in ("assignment", "setting") and not is_number(word.partition("=")[2]):
                return "'%s' is no number from 0 to 4294967295, in digits alone" % word.partition("=")[2]
        return out_of_range(*numbers[-1])

    def value_words(self):
        for word, slot in slots_of(self.tokens):
            if slot.what == "fixed" and word not in slot.words:
                return "'%s' is none of %s%s" % (word, ", ".join(slot.words), did_you_mean(word, slot.words))
            if slot.what in ("assignment", "variable", "setting"):
                found = self.bad_assignment(word, slot)
                if found:
                    return found
        return self.form_words()

    def bad_assignment(self, word, slot):
        """What is wrong with the variable or the value of an ASSIGNMENT, a VARIABLE or a VAR=NUMBER."""
        group = self.group_of_line()
        entity, point, rest = ("", ".", word) if slot.what == "setting" else word.partition(".")
        entity = self.tokens[2] if slot.what == "setting" else entity
        variables = LINK_VARIABLES if group and entity in group.links else DEVICE_VARIABLES
        if not point:
            return "'%s' names no variable: '%s.%s' is one" % (word, word, variables[0])
        variable, equals, value = rest.partition("=")
        if slot.what == "variable" and equals:
            return "'%s' gives a value, and a variable alone stands here: '%s.%s'" % (word, entity, variable)
        if slot.what != "variable" and not equals:
            return "'%s' gives no value: '%s=1' would" % (word, word)
        if variable not in variables:
            return "'%s' is no variable of '%s', which has %s%s" % (variable, entity, ", ".join(variables), did_you_mean(variable, variables))
        if variable in SWITCHED and value not in ("0", "1", ""):
            return "'%s' is 0 or 1, and not %s" % (variable, value)
        return None

    def cross_words(self):
        word = next(word for word in self.tokens[2:4] if "/" in word and word.split("/")[0] != self.group.name)
        return "'%s' is of another group: a link joins devices of its own, so make the two groups one" % word

    def loop_words(self):
        return "both ends of the link are '%s'" % self.tokens[2].split("/")[-1]

    def pair_words(self):
        ends = self.tokens[1:3]
        for end in ends:
            if self.group.devices.get(end) == "switch":
                return "'%s' is a switch, and a promise is made of two ToRs" % end
        if ends[0] == ends[1]:
            return "both ends of the promise are '%s'" % ends[0]
        before = next(each.line for each in self.group.promises if set(each.ends) == set(ends))
        return "the pair was promised already, on line %d, in this order or the other" % before

    def limit_words(self):
        limit = FORMS[self.tokens[0]].limit if len(self.tokens) > MOST_WORDS or self.tokens[0] != "propose" else ""
        return "more than may be: at most %s" % (limit or COMMAND_LIMIT)

    # A line of a journal.

    def entry_words(self):
        if self.kind == "word":
            return "a line of journals is 'journal GROUP' or begins with an entry's number, and stands behind a 'journal' line"
        if self.kind == "count":
            return "the form of an entry is 'N EVENT : REPLY', each with its words ('Journals as text' of docs/FORMATS.md)"
        if self.kind == "number":
            return "'%s' or another number of the line is not the next, or not in its range" % self.tokens[0]
        if self.kind == "value" and len(self.tokens) > 1 and self.tokens[1] not in EVENTS:
            return "'%s' is no event%s" % (self.tokens[1], did_you_mean(self.tokens[1], EVENTS))
        return ENTRY_KINDS.get(self.kind, "the line is not of the form of 'Journals as text' of docs/FORMATS.md")


ENTRY_KINDS = {
    "value": "a reply that the event does not have, or a word or value that can't stand in its place",
    "unknown": "a name that the document does not declare",
    "name": A_NAME,
    "twice": "a journal that stands again or out of order, a variable that is set twice, or a side that is not in the order of devices",
    "pair": "no promise was declared with these ends in this order",
    "limit": "at most 16 rows of a proposal",
}


def is_number(text):
    return NUMBER.match(text) is not None and int(text) <= GREATEST_NUMBER


def what_is_odd(name):
    """What a name may not have, behind `is no name`."""
    odd = [byte for byte in name if not (byte.isalnum() or byte in "_-")]
    if odd:
        return ", for its '%s'" % odd[0]
    return ", for its %d letters" % len(name) if len(name) > 32 else ""


def out_of_range(word, slot):
    return "'%s' is no number of its range: %s, in digits alone" % (word, slot.range)
