"""Makes a document of graphs, with the line of the source that each of its lines came from."""

import fnmatch

from operators.graphs import Graph
from operators.naming import MOST_LETTERS, Naming, in_ascii

OF_NODES, OF_LINKS = ("role",), ("capacity", "name")


class Built:
    """The lines of a document behind its header, the names, and what was left out."""

    def __init__(self):
        self.lines, self.names, self.left_out = [], [], {}

    def add(self, text, line):
        self.lines.append((text, line))

    def leave_out(self, what, line):
        self.left_out.setdefault(what, []).append(line)


def built(source, graphs, options):
    """The document of some graphs, each of which is a group, and some of which have nodes."""
    made, groups = Built(), Naming()
    originals = [options.group or graph.name or "dc1" for graph in graphs]
    again = [name for at, name in enumerate(originals) if name in originals[:at]]
    if again:
        source.refuse(1, "two graphs have the name '%s'" % again[0])
    groups.give(originals)
    for original, graph in zip(originals, graphs):
        GroupBuilder(source, made, options, original, groups.given[original]).build(graph)
    # A group may be without devices, but not all of them: then the source is hardly what was meant.
    if not any(kind == "device" for kind, *_ in made.names):
        source.refuse(1, "no node, and so no device of group %s" % originals[0])
    return made


class GroupBuilder:
    def __init__(self, source, made, options, original, name):
        self.source, self.made, self.options = source, made, options
        self.original, self.name = original, name
        self.naming = Naming()

    def build(self, graph):
        graph = self.kept(graph)
        self.made.names.append(("group", self.name, self.name, self.original))
        self.tell_name(self.name, self.original, 1)
        self.made.add("group " + self.name, 1)
        self.leave_out("of the graph", graph.attributes, 1)
        self.naming.give(list(graph.nodes))
        tors = [self.device(node) for node in graph.nodes.values()]
        self.links(graph)
        self.promises([name for name in tors if name])

    def kept(self, graph):
        """The graph without the nodes that are to be left out, and without their edges."""
        for option, patterns in (("--tor", self.options.tor), ("--without", self.options.without)):
            for pattern in patterns:
                if not any(matches(name, [pattern]) for name in graph.nodes):
                    self.source.refuse(None, "%s '%s' names no node of group %s" % (option, pattern, self.original))
        kept = Graph(graph.name)
        kept.attributes = graph.attributes
        for node in graph.nodes.values():
            if matches(node.name, self.options.without):
                self.made.leave_out("a node by --without", node.line)
            else:
                kept.nodes[node.name] = node
        for edge in graph.edges:
            if all(end in kept.nodes for end in edge.ends):
                kept.edges.append(edge)
            else:
                self.made.leave_out("a link by --without", edge.line)
        return kept

    def device(self, node):
        """Adds a device; answers its name where it is a ToR."""
        name = self.naming.given[node.name]
        role = node.attributes.get("role", "switch")
        if self.options.tor:
            self.leave_out("of a node", {"role": role} if "role" in node.attributes else {}, node.line)
            role = "tor" if matches(node.name, self.options.tor) else "switch"
        self.leave_out("of a node", without(node.attributes, OF_NODES), node.line)
        self.made.names.append(("device", self.name, name, node.name))
        self.tell_name(name, node.name, node.line)
        self.made.add("device %s %s" % (name, self.word(node.line, "role", role)), node.line)
        return name if role == "tor" else None

    def links(self, graph):
        self.naming.give([edge.attributes["name"] for edge in graph.edges if edge.attributes.get("name")])
        named = set()
        for number, edge in enumerate(graph.edges, 1):
            own = edge.attributes.get("name")
            if own in named or (own in graph.nodes and own):
                self.source.refuse(edge.line, "the name '%s' stands for two" % own)
            named.update([own] if own else [])
            self.link(edge, own, number)

    def link(self, edge, own, number):
        ends = [self.naming.given[end] for end in edge.ends]
        name = self.naming.given[own] if own else self.naming.new(link_name(ends, number))
        told = " - ".join(end + (":" + interface if interface else "") for end, interface in zip(edge.ends, edge.interfaces))
        if own:
            self.tell_name(name, own, edge.line)
        if any(edge.interfaces):
            self.made.add("# %s joins %s" % (name, in_ascii(told)), edge.line)
        self.made.names.append(("link", self.name, name, own or told))
        self.leave_out("of a link", without(edge.attributes, OF_LINKS), edge.line)
        capacity = self.word(edge.line, "capacity", edge.attributes.get("capacity", self.options.capacity))
        self.made.add("link %s %s %s %s" % (name, *ends, capacity), edge.line)

    def promises(self, tors):
        if self.options.promise is None:
            return
        for at, first in enumerate(tors):
            for second in tors[at + 1:]:
                self.made.add("promise %s %s %d" % (first, second, self.options.promise), None)

    def word(self, line, what, text):
        """A value that becomes a word of a line; whether it may stand there the program says."""
        if text == "" or any(not "!" <= byte <= "~" for byte in text):
            self.source.refuse(line, "the %s %s is not one word of ASCII" % (what, in_ascii(text)))
        return text

    def tell_name(self, name, original, line):
        if name != original:
            self.made.add("# %s is %s" % (name, in_ascii(original)), line)

    def leave_out(self, of, attributes, line):
        for key, at in attributes.items():
            self.made.leave_out("%s %s" % (key, of), at if isinstance(at, int) else line)


def link_name(ends, number):
    """The two names, or where a name has no room for both a number."""
    name = "-".join(ends)
    return name if len(name) <= MOST_LETTERS else "l%d" % number


def without(attributes, keys):
    return {key: value for key, value in attributes.items() if key not in keys}


def matches(name, patterns):
    return any(fnmatch.fnmatchcase(name, pattern) for pattern in patterns)
