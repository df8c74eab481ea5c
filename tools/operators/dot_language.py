"""Reads graphs of Graphviz's DOT language: `graph NAME { a -- b [capacity=10]; }`, with attributes, chains, ports, subgraphs and groups of
nodes in braces. A `digraph` is refused, since a link has no direction, and so are texts in HTML."""

import re
from typing import NamedTuple

from operators.graphs import Edge, Graph

TOKEN = re.compile(r"""
    (?P<space>\s+) | (?P<comment>//[^\n]*|/\*.*?\*/|(?<![^\n])\#[^\n]*)
  | (?P<id>[A-Za-z_\x80-\U0010ffff][A-Za-z0-9_\x80-\U0010ffff]*|-?(?:\.[0-9]+|[0-9]+(?:\.[0-9]*)?))
  | (?P<quoted>"(?:[^"\\]|\\.)*")
  | (?P<mark>--|->|[{}\[\];,=:+])""", re.VERBOSE | re.DOTALL)
WORDS = ("graph", "digraph", "subgraph", "node", "edge", "strict")


class Token(NamedTuple):
    kind: str
    text: str
    line: int


def read_dot(source):
    """The graphs of a text."""
    reader = Reader(source)
    graphs = []
    while reader.next().kind != "end":
        graphs.append(reader.graph())
    if not graphs:
        source.refuse(1, "no graph")
    return graphs


def tokens_of(source):
    text, at, line, tokens = "\n".join(source.lines), 0, 1, []
    while at < len(text):
        found = TOKEN.match(text, at)
        if not found:
            what = {"<": "a text in HTML, which is not read", '"': "a text in quotes that does not end", "/": "a comment that does not end"}
            source.refuse(line, "%s: %r" % (what.get(text[at], "no word of DOT"), text[at:].split("\n")[0][:40]))
        if found.lastgroup == "quoted":
            inside = found[0][1:-1].replace("\\\n", "").replace('\\"', '"')
            tokens.append(Token("id", inside, line))
        elif found.lastgroup in ("id", "mark"):
            is_word = found.lastgroup == "id" and found[0].lower() in WORDS
            tokens.append(Token("word" if is_word else found.lastgroup, found[0].lower() if is_word else found[0], line))
        line += found[0].count("\n")
        at = found.end()
    return [*tokens, Token("end", "the end of the text", line)]


class Reader:
    def __init__(self, source):
        self.refuse, self.tokens, self.at = source.refuse, tokens_of(source), 0

    def next(self):
        return self.tokens[self.at]

    def pop(self):
        """Goes on behind the next token, of which the last is never left."""
        token = self.next()
        self.at += token.kind != "end"
        return token

    def take(self, *texts):
        """The next token, which has to be one of these marks or words, where some are named."""
        token = self.pop()
        if token.kind == "id" or token.text not in texts:
            self.refuse(token.line, "'%s' where %s is to be" % (token.text, " or ".join("'%s'" % text for text in texts)))
        return token

    def is_next(self, *texts):
        return self.next().kind != "id" and self.next().text in texts

    def name(self, what):
        token = self.pop()
        if token.kind != "id":
            self.refuse(token.line, "'%s' where %s is to be" % (token.text, what))
        if self.is_next("+"):
            self.refuse(token.line, "texts that are joined by '+', which are not read")
        return token

    def graph(self):
        self.is_strict = self.is_next("strict") and bool(self.take("strict"))
        word = self.take("graph", "digraph")
        if word.text == "digraph":
            self.refuse(word.line, "a digraph, whose edges have a direction, and links have none: write 'graph' and '--'")
        self.made = Graph(self.name("a name").text if self.next().kind == "id" else None)
        self.edges = {}
        self.take("{")
        self.statements({"node": {}, "edge": {}})
        return self.made

    def statements(self, defaults):
        """What stands up to the closing brace, with the attributes of nodes and edges that stand for all; answers the nodes."""
        nodes = []
        while not self.is_next("}"):
            if self.is_next(";"):
                self.take(";")
            elif self.is_next("graph", "node", "edge"):
                word = self.take("graph", "node", "edge")
                attributes = self.attributes()
                (self.made.attributes if word.text == "graph" else defaults[word.text]).update(attributes)
            else:
                nodes += self.statement(defaults)
        self.take("}")
        return list(dict.fromkeys(nodes))

    def statement(self, defaults):
        line = self.next().line
        ends = [self.end(defaults)]
        if self.is_next("=") and ends[0].name is not None:
            self.take("=")
            self.made.attributes[ends[0].name] = self.name("a value").text
            return []
        while self.is_next("--", "->"):
            self.take("--")
            ends.append(self.end(defaults))
        attributes = self.attributes() if self.is_next("[") else {}
        for end in ends:
            end.declare(self.made, defaults["node"])
        if len(ends) == 1 and ends[0].name is not None:
            self.made.nodes[ends[0].name].attributes.update(attributes)
        for first, second in zip(ends, ends[1:]):
            self.join(first, second, line, {**defaults["edge"], **attributes})
        return [node for end in ends for node in end.nodes]

    def join(self, first, second, line, attributes):
        """Adds the edges between two ends. In a strict graph two nodes have one edge, which gets the attributes of both."""
        for one in first.nodes:
            for other in second.nodes:
                edge = Edge((one, other), line, (first.port, second.port))
                known = self.edges.setdefault(frozenset(edge.ends), edge) if self.is_strict else edge
                known.attributes.update(attributes)
                if known is edge:
                    self.made.edges.append(edge)

    def end(self, defaults):
        """A node with its port, or the nodes of a subgraph."""
        if self.is_next("subgraph", "{"):
            line = self.next().line
            if self.is_next("subgraph"):
                self.take("subgraph")
                if self.next().kind == "id":
                    self.name("a name")
            self.take("{")
            inner = {word: dict(attributes) for word, attributes in defaults.items()}
            return End(None, self.statements(inner), "", line)
        token, port = self.name("a node"), ""
        while self.is_next(":"):
            self.take(":")
            port += (":" if port else "") + self.name("a port").text
        return End(token.text, [token.text], port, token.line)

    def attributes(self):
        """One or more lists in square brackets."""
        found = {}
        self.take("[")
        while not self.is_next("]"):
            key = self.name("an attribute").text
            self.take("=")
            found[key] = self.name("a value").text
            if self.is_next(",", ";"):
                self.take(",", ";")
        self.take("]")
        if self.is_next("["):
            found.update(self.attributes())
        return found


class End(NamedTuple):
    name: str
    nodes: list
    port: str
    line: int

    def declare(self, graph, attributes):
        """Makes the node where it is new, with the attributes that stand for all."""
        if self.name is not None and self.name not in graph.nodes:
            graph.node(self.name, self.line).attributes.update(attributes)
