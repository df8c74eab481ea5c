"""A network as other programs write it: nodes and edges with attributes, each with the line that it came from."""

from operators.asking import BadInput, shown


class Node:
    def __init__(self, name, line):
        self.name, self.line, self.attributes = name, line, {}


class Edge:
    """`interfaces` are those of its two ends, where the text names them."""

    def __init__(self, ends, line, interfaces=("", "")):
        self.ends, self.line, self.interfaces, self.attributes = ends, line, interfaces, {}


class Graph:
    def __init__(self, name):
        self.name, self.nodes, self.edges = name, {}, []
        self.attributes = {}

    def node(self, name, line):
        """The node of a name, which is made where it is new."""
        return self.nodes.setdefault(name, Node(name, line))


class Source:
    """A text that a graph is read from; what is wrong with it is told with its file and line."""

    def __init__(self, path, data):
        self.path = path
        self.lines = []
        for number, line in enumerate(data.split(b"\n"), 1):
            try:
                self.lines.append(line.decode("utf-8").removesuffix("\r"))
            except UnicodeDecodeError as error:
                self.refuse(number, "column %d: the byte 0x%02x is no UTF-8" % (error.start + 1, line[error.start]))
        if self.lines[0].startswith("\ufeff"):
            self.lines[0] = self.lines[0][1:]
        if self.lines[-1] == "":
            self.lines.pop()

    def refuse(self, line, what):
        """Refuses a line, or where it is None the whole."""
        raise BadInput("%s:%s %s" % (shown(self.path), "" if line is None else "%d:" % line, what))
