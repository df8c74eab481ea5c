"""Reads a document, or names its fault: the first bad line with the first kind that applies (docs/FORMATS.md)."""

from document import (
    SWITCHES, VARIABLES, Application, Await, BreakDown, Device, Document, Entity, Group, Link, Poll, Promise, Propose,
    Read, ReadAt, ReturnLock, Row, Settle, TakeLock, WireLine,
)
from texts import GREATEST_NUMBER, has_bad_byte, is_name, is_skipped, lines_of, number_of, tokens_of

PHASES = {
    b"group": 1, b"device": 1, b"link": 1, b"promise": 1, b"open": 1, b"health": 1,
    b"drop": 2, b"repeat": 2, b"hold": 2,
    b"app": 3, b"propose": 3, b"await": 3, b"settle": 3, b"lock": 3, b"unlock": 3, b"read": 3, b"readat": 3,
    b"fail": 3, b"poll": 3,
    b"order": 4,
}

# The least and the greatest number of tokens of a line, its first word among them; None is without end.
COUNTS = {
    b"group": (2, 2), b"device": (3, 3), b"link": (5, 5), b"promise": (4, 4), b"open": (2, 2), b"health": (3, 3),
    b"drop": (4, 4), b"repeat": (5, 5), b"hold": (5, 5),
    b"app": (2, 2), b"propose": (3, None), b"await": (2, 2), b"settle": (3, 3), b"lock": (4, 4), b"unlock": (4, 4),
    b"read": (3, 3), b"readat": (4, 4), b"fail": (4, None), b"poll": (3, 3),
    b"order": (2, None),
}

MOST_GROUPS, MOST_APPLICATIONS, MOST_COMMANDS = 16, 32, 1024
MOST_DEVICES, MOST_LINKS, MOST_TORS, MOST_PROMISES = 512, 4096, 64, 2016
MOST_ROWS, MOST_WIRE_LINES, MOST_BYTES = 16, 1024, 1048576


class Fault(Exception):
    """The kind of a bad line, and once it is known its number."""

    def __init__(self, kind, line=None):
        super().__init__(kind, line)
        self.kind = kind
        self.line = line


def read_document(text):
    """The document that a text says; raises `Fault` with a line and a kind where it says none."""
    reader = Reader()
    lines = lines_of(text)
    for number, line in enumerate(lines, 1):
        try:
            reader.take_line(line)
        except Fault as fault:
            raise Fault(fault.kind, number) from None
    if not reader.has_header:
        raise Fault("header", len(lines) + 1)
    return reader.document


class Reader:
    """What the lines so far have said. A method named for a line's first word takes the tokens behind it."""

    def __init__(self):
        self.document = Document()
        self.has_header = False
        self.phase = 1

    def take_line(self, line):
        if has_bad_byte(line):
            raise Fault("byte")
        tokens = tokens_of(line)
        if is_skipped(tokens):
            return
        if not self.has_header:
            if tokens != [b"statesman", b"1"]:
                raise Fault("header")
            self.has_header = True
            return
        word = tokens[0]
        self.allow_word(word)
        least, most = COUNTS[word]
        if len(tokens) < least or (most is not None and len(tokens) > most):
            raise Fault("count")
        getattr(self, "line_" + word.decode())(*tokens[1:])

    def allow_word(self, word):
        """The word is a keyword, and its phase and section allow it here."""
        phase = PHASES.get(word)
        if phase is None or phase < self.phase:
            raise Fault("word")
        if phase == 1 and word != b"group" and not self.document.groups:
            raise Fault("word")
        if phase == 3 and word != b"app" and not self.document.applications:
            raise Fault("word")
        self.phase = phase

    # Tokens.

    def spelled(self, token):
        if not is_name(token):
            raise Fault("name")
        return token.decode()

    def group_named(self, token):
        name = self.spelled(token)
        for number, group in enumerate(self.document.groups):
            if group.name == name:
                return number
        raise Fault("unknown")

    def application_named(self, token):
        name = self.spelled(token)
        for number, application in enumerate(self.document.applications):
            if application.name == name:
                return number
        raise Fault("unknown")

    def entity_named(self, group, token):
        name = self.spelled(token)
        if name not in group.named:
            raise Fault("unknown")
        return group.named[name]

    def device_named(self, group, token):
        entity = self.entity_named(group, token)
        if entity.is_link:
            raise Fault("unknown")
        return entity.number

    def new_entity_name(self, group, token):
        name = self.spelled(token)
        if name in group.named:
            raise Fault("twice")
        return name

    def link_end(self, group, token):
        """An END: the device's number."""
        if b"/" in token:
            of_group, token = token.split(b"/", 1)
            if not is_name(of_group) or not is_name(token):
                raise Fault("name")
            if of_group.decode() != group.name:
                raise Fault("cross")
        return self.device_named(group, token)

    def number_in(self, token, least, most):
        number = number_of(token)
        if number is None or not least <= number <= most:
            raise Fault("number")
        return number

    def one_of(self, token, words):
        if token.decode() not in words:
            raise Fault("value")
        return token.decode()

    def entity_of_variable(self, group, token):
        """The entity of a VARIABLE or ASSIGNMENT, and what stands behind its first `.`, or None without one."""
        name, point, rest = token.partition(b".")
        return self.entity_named(group, name), rest if point else None

    def value_of(self, entity, text):
        """The variable's place and the value of a VAR=NUMBER."""
        if text is None or b"=" not in text:
            raise Fault("value")
        word, _, digits = text.partition(b"=")
        variable = self.variable_of(entity, word)
        value = number_of(digits)
        if value is None:
            raise Fault("number")
        if entity.variables()[variable] in SWITCHES and value > 1:
            raise Fault("value")
        return variable, value

    def variable_of(self, entity, word):
        if word is None or word.decode() not in VARIABLES[entity.is_link]:
            raise Fault("value")
        return VARIABLES[entity.is_link].index(word.decode())

    def assignment(self, group, token, was_set):
        """The row of an ASSIGNMENT, whose variable is none of those that were set before; now it is."""
        entity, text = self.entity_of_variable(group, token)
        variable, value = self.value_of(entity, text)
        if (entity, variable) in was_set:
            raise Fault("twice")
        was_set.add((entity, variable))
        return Row(entity, variable, value)

    def variable(self, group, token):
        entity, word = self.entity_of_variable(group, token)
        return entity, self.variable_of(entity, word)

    # Lines of phase 1.

    def line_group(self, token):
        name = self.spelled(token)
        if any(group.name == name for group in self.document.groups):
            raise Fault("twice")
        if len(self.document.groups) == MOST_GROUPS:
            raise Fault("limit")
        self.document.groups.append(Group(name))

    def line_device(self, token, kind):
        group = self.document.groups[-1]
        name = self.new_entity_name(group, token)
        is_tor = self.one_of(kind, ("tor", "switch")) == "tor"
        tors = sum(device.is_tor for device in group.devices)
        if len(group.devices) == MOST_DEVICES or (is_tor and tors == MOST_TORS):
            raise Fault("limit")
        group.named[name] = Entity(False, len(group.devices))
        group.devices.append(Device(name, is_tor))

    def line_link(self, token, first, second, capacity):
        group = self.document.groups[-1]
        name = self.new_entity_name(group, token)
        first, second = self.link_end(group, first), self.link_end(group, second)
        capacity = self.number_in(capacity, 1, 1000000)
        if first == second:
            raise Fault("loop")
        if len(group.links) == MOST_LINKS:
            raise Fault("limit")
        group.named[name] = Entity(True, len(group.links))
        group.links.append(Link(name, first, second, capacity))

    def line_promise(self, first, second, percentage):
        group = self.document.groups[-1]
        first, second = self.device_named(group, first), self.device_named(group, second)
        percentage = self.number_in(percentage, 0, 100)
        if not (group.devices[first].is_tor and group.devices[second].is_tor) or first == second:
            raise Fault("pair")
        if any({promise.first, promise.second} == {first, second} for promise in group.promises):
            raise Fault("pair")
        if len(group.promises) == MOST_PROMISES:
            raise Fault("limit")
        group.promises.append(Promise(first, second, percentage))

    def line_open(self, token):
        group = self.document.groups[-1]
        row = self.assignment(group, token, set(group.opened))
        group.opened[row.entity, row.variable] = row.value

    def line_health(self, token, health):
        group = self.document.groups[-1]
        entity = self.entity_named(group, token)
        if entity in group.healths:
            raise Fault("twice")
        group.healths[entity] = self.number_in(health, 0, entity.greatest_health())

    # Lines of phase 2.

    def wire_line(self, word, token, kind, number, to_turn):
        group = self.document.groups[self.group_named(token)]
        kind = self.one_of(kind, ("command", "report"))
        number = self.number_in(number, 1, GREATEST_NUMBER)
        if word != "drop":
            to_turn = self.number_in(to_turn, number + (word == "hold"), GREATEST_NUMBER)
        if len(group.wire_lines) == MOST_WIRE_LINES:
            raise Fault("limit")
        group.wire_lines.append(WireLine(word, kind, number, to_turn))

    def line_drop(self, token, kind, number):
        self.wire_line("drop", token, kind, number, None)

    def line_repeat(self, token, kind, number, to_turn):
        self.wire_line("repeat", token, kind, number, to_turn)

    def line_hold(self, token, kind, number, to_turn):
        self.wire_line("hold", token, kind, number, to_turn)

    # Lines of phase 3.

    def line_app(self, token):
        name = self.spelled(token)
        if any(application.name == name for application in self.document.applications):
            raise Fault("twice")
        if len(self.document.applications) == MOST_APPLICATIONS:
            raise Fault("limit")
        self.document.applications.append(Application(name))

    def add_command(self, command):
        commands = self.document.applications[-1].commands
        if len(commands) == MOST_COMMANDS:
            raise Fault("limit")
        commands.append(command)

    def group_and_entity(self, group_token, entity_token):
        number = self.group_named(group_token)
        return number, self.entity_named(self.document.groups[number], entity_token)

    def line_propose(self, token, *assignments):
        number = self.group_named(token)
        was_set = set()
        rows = [self.assignment(self.document.groups[number], each, was_set) for each in assignments]
        if len(rows) > MOST_ROWS:
            raise Fault("limit")
        self.add_command(Propose(number, tuple(rows)))

    def line_await(self, token):
        self.add_command(Await(self.group_named(token)))

    def line_settle(self, token, rounds):
        self.add_command(Settle(self.group_named(token), self.number_in(rounds, 1, 64)))

    def line_lock(self, group_token, entity_token, priority):
        number, entity = self.group_and_entity(group_token, entity_token)
        self.add_command(TakeLock(number, entity, self.one_of(priority, ("low", "high"))))

    def line_unlock(self, group_token, entity_token, priority):
        number, entity = self.group_and_entity(group_token, entity_token)
        self.add_command(ReturnLock(number, entity, self.one_of(priority, ("low", "high"))))

    def line_read(self, token, variable):
        number = self.group_named(token)
        entity, place = self.variable(self.document.groups[number], variable)
        self.add_command(Read(number, entity, place))

    def line_readat(self, token, version, variable):
        number = self.group_named(token)
        version = self.number_in(version, 0, GREATEST_NUMBER)
        entity, place = self.variable(self.document.groups[number], variable)
        self.add_command(ReadAt(number, version, entity, place))

    def line_fail(self, group_token, entity_token, health, *values):
        number, entity = self.group_and_entity(group_token, entity_token)
        health = self.number_in(health, 0, entity.greatest_health())
        named = {}
        for text in values:
            variable, value = self.value_of(entity, text)
            if variable in named:
                raise Fault("twice")
            named[variable] = value
        self.add_command(BreakDown(number, entity, health, tuple(named.items())))

    def line_poll(self, group_token, entity_token):
        number, entity = self.group_and_entity(group_token, entity_token)
        self.add_command(Poll(number, entity))

    # The line of phase 4.

    def line_order(self, *names):
        self.document.order.extend([self.application_named(name) for name in names])
