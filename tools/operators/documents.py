"""The parts of a document with the numbers of their lines, as docs/FORMATS.md lays them out. Whether a text is a document the program
says: these parts are read of one that it took, or of the lines above a fault."""

from typing import NamedTuple

from operators.texts import worded_lines

NETWORK_WORDS = ("group", "device", "link", "promise", "open", "health")
WIRE_WORDS = ("drop", "repeat", "hold")
DEVICE_VARIABLES = ("power", "firmware", "config", "routing")
LINK_VARIABLES = ("power", "iface")
SWITCHED = ("power", "routing")


class Link(NamedTuple):
    ends: tuple
    capacity: str


class Promise(NamedTuple):
    line: int
    ends: tuple
    percentage: str


class Command(NamedTuple):
    """A command of an application, with its words; the first behind its own is the group."""

    line: int
    words: list


class Group:
    def __init__(self, name, line):
        self.name, self.line = name, line
        self.devices, self.links, self.promises = {}, {}, []
        self.opened, self.health = {}, {}
        self.lines_of_names, self.texts = {}, []

    def entities(self):
        """The names of devices, and then of links."""
        return [*self.devices, *self.links]

    def opening(self, entity, variable):
        return self.opened.get((entity, variable), 1)


class Application:
    def __init__(self, name, line):
        self.name, self.line, self.commands = name, line, []


class Document:
    """A document's parts, groups and applications by name and in order; the lines of journals are kept apart."""

    def __init__(self):
        self.groups, self.applications = {}, {}
        self.wires, self.order = [], []

    def take(self, line, words):
        """Takes a line, the header's aside."""
        if words[0] in NETWORK_WORDS:
            self.take_network_line(line, words)
        elif words[0] in WIRE_WORDS:
            self.wires.append((line, words))
        elif words[0] == "app":
            self.applications[words[1]] = Application(words[1], line)
        elif words[0] == "order":
            self.order += words[1:]
        else:
            list(self.applications.values())[-1].commands.append(Command(line, words))

    def take_network_line(self, line, words):
        if words[0] == "group":
            self.groups[words[1]] = Group(words[1], line)
        group = list(self.groups.values())[-1]
        group.texts.append(" ".join(words))
        if words[0] == "device":
            group.devices[words[1]] = words[2]
        elif words[0] == "link":
            group.links[words[1]] = Link(tuple(end.split("/")[-1] for end in words[2:4]), words[4])
        elif words[0] == "promise":
            group.promises.append(Promise(line, tuple(words[1:3]), words[3]))
        elif words[0] == "open":
            entity, variable, value = assignment_parts(words[1])
            group.opened[entity, variable] = value
        elif words[0] == "health":
            group.health[words[1]] = words[2]
        if words[0] in ("device", "link"):
            group.lines_of_names[words[1]] = line

    def network_texts(self):
        """The lines of all groups and wires, as they are written without what is skipped."""
        groups = [text for group in self.groups.values() for text in group.texts]
        return groups + [" ".join(words) for _, words in self.wires]

    def application_texts(self):
        """The lines of applications with their commands."""
        for application in self.applications.values():
            yield "app " + application.name
            yield from (" ".join(command.words) for command in application.commands)

    def rounds(self):
        """How many turns all applications take, one after another, behind the `order` lines."""
        left = [len(each.commands) - self.order.count(each.name) for each in self.applications.values()]
        return max([0, *left])


def assignment_parts(text):
    """Entity, variable and value of an ASSIGNMENT."""
    entity, _, rest = text.partition(".")
    variable, _, value = rest.partition("=")
    return entity, variable, int(value)


def read_document(data):
    """The parts of a document that the program took, up to its journals where it has some."""
    document = Document()
    for place, (line, words) in enumerate(worded_lines(data)):
        if words[0] == "journal":
            break
        if place > 0:
            document.take(line, words)
    return document


def text_of(lines):
    """A document of these lines behind the header, as bytes."""
    return "".join(line + "\n" for line in ["statesman 1", *lines]).encode("ascii")
