"""Reads the simple form of YAML in which topologies are mostly written: mappings and lists by their indentation, lists and mappings in
brackets on one line, and words, plain or quoted. What goes beyond it (anchors, tags, texts of several lines) is refused with its line."""

import re
from typing import NamedTuple


class Yaml(NamedTuple):
    """A value with its line: a dict by keys, a list, a text, or None."""

    value: object
    line: int


class Line(NamedTuple):
    number: int
    indent: int
    text: str


QUOTED = r""""(?:[^"\\]|\\.)*"|'(?:[^']|'')*'"""
KEY = re.compile(r"""(%s|[^"'\[\]{},&*!|>%%@`#?\s][^\[\]{},]*?)\s*:(?:\s+|\Z)""" % QUOTED)
DASH = re.compile(r"-(\s|\Z)")
BEYOND = {
    "&": "an anchor", "*": "an alias", "!": "a tag", "|": "a text of several lines", ">": "a text of several lines", "%": "a directive",
    "@": "a reserved word", "`": "a reserved word",
}
ESCAPES = {'"': '"', "\\": "\\", "/": "/"}


def read_yaml(source):
    """The value of a text."""
    reader = Reader(source)
    value = reader.block(reader.lines[0].indent) if reader.lines else Yaml(None, 1)
    if reader.lines:
        reader.refuse(reader.lines[0].number, "'%s' is indented otherwise than the lines above it" % reader.lines[0].text)
    return value


class Reader:
    def __init__(self, source):
        self.refuse = source.refuse
        self.lines = [line for line in map(self.line_of, enumerate(source.lines, 1)) if line.text]
        if self.lines and self.lines[0].text == "---":
            del self.lines[0]

    def line_of(self, numbered):
        number, whole = numbered
        text = self.without_comment(number, whole).rstrip()
        indent = len(text) - len(text.lstrip())
        if "\t" in text[:indent]:
            self.refuse(number, "a tab in the indentation, which YAML does not allow")
        return Line(number, indent, text[indent:])

    def without_comment(self, number, text):
        quote = None
        for at, byte in enumerate(text):
            if quote:
                quote = None if byte == quote and not (quote == '"' and text[at - 1] == "\\") else quote
            elif byte in "'\"" and (at == 0 or text[at - 1] in " \t[{,:"):
                quote = byte
            elif byte == "#" and (at == 0 or text[at - 1] in " \t"):
                return text[:at]
        if quote:
            self.refuse(number, "a text in quotes that does not end on its line")
        return text

    # Blocks, which take lines from the front.

    def block(self, indent):
        first = self.lines[0]
        if DASH.match(first.text):
            return self.list_block(indent)
        if KEY.match(first.text):
            return self.mapping_block(indent)
        del self.lines[0]
        return self.value_on_line(first.number, first.text)

    def list_block(self, indent):
        line, items = self.lines[0].number, []
        while self.lines and self.lines[0].indent == indent and DASH.match(self.lines[0].text):
            first = self.lines[0]
            rest = first.text[1:].lstrip()
            if rest == "":
                del self.lines[0]
                items.append(self.nested(first, indent + 1))
            else:
                deeper = indent + len(first.text) - len(rest)
                self.lines[0] = Line(first.number, deeper, rest)
                items.append(self.block(deeper))
        return Yaml(items, line)

    def mapping_block(self, indent):
        line, values = self.lines[0].number, {}
        while self.lines and self.lines[0].indent == indent:
            first = self.lines.pop(0)
            found = KEY.match(first.text)
            if not found:
                self.refuse(first.number, "'%s' is no 'key: value'" % first.text)
            key = self.word(first.number, found[1])
            if key in values:
                self.refuse(first.number, "the key '%s' stands twice" % key)
            rest = first.text[found.end():]
            value = self.value_on_line(first.number, rest) if rest else self.nested(first, indent + 1, indent)
            values[key] = value._replace(line=first.number)
        return Yaml(values, line)

    def nested(self, first, least, of_list=None):
        """The block below a key or a dash. The list of a key may stand at the key's own indentation."""
        following = self.lines[0] if self.lines else None
        if following and following.indent >= least:
            return self.block(following.indent)
        if following and following.indent == of_list and DASH.match(following.text):
            return self.list_block(of_list)
        return Yaml(None, first.number)

    # Values on one line.

    def value_on_line(self, number, text):
        value, rest = self.flow(number, text) if text[0] in "[{" else (self.plain_or_quoted(number, text), "")
        if rest.strip():
            self.refuse(number, "'%s' stands behind the end of a value" % rest.strip())
        return value

    def plain_or_quoted(self, number, text):
        if text[0] not in "\"'" and re.search(r":(\s|\Z)", text):
            self.refuse(number, "'%s' has a second 'key: value': put it in quotes, or on a line of its own" % text)
        return Yaml(self.word(number, text), number)

    def word(self, number, text):
        """The text of a word, plain or quoted; None of an empty one."""
        if text[0] in BEYOND:
            self.refuse(number, "'%s' begins %s, which this simple form has not" % (text, BEYOND[text[0]]))
        if text[0] in ",[]{}" or DASH.match(text):
            self.refuse(number, "'%s' where a word is to be" % text)
        if text[0] in "'\"" and not re.fullmatch(QUOTED, text):
            self.refuse(number, "'%s' stands behind the end of a text in quotes" % text)
        if text[0] == "'":
            return text[1:-1].replace("''", "'")
        if text[0] == '"':
            return re.sub(r"\\(.)", lambda found: self.escaped(number, found[1]), text[1:-1])
        return None if text in ("~", "null") else text

    def escaped(self, number, byte):
        return ESCAPES[byte] if byte in ESCAPES else self.refuse(number, "'\\%s' in quotes, which this simple form has not" % byte)

    def flow(self, number, text):
        """A list or a mapping in brackets, and what stands behind it."""
        closing, is_list = {"[": "]", "{": "}"}[text[0]], text[0] == "["
        items, values, rest = [], {}, text[1:].lstrip()
        while not rest.startswith(closing):
            if rest == "":
                self.refuse(number, "'%s' does not end on its line" % text)
            if is_list:
                item, rest = self.flow_item(number, rest)
                items.append(item)
            else:
                rest = self.flow_pair(number, rest, values)
            rest = rest.lstrip()
            if rest.startswith(","):
                rest = rest[1:].lstrip()
            elif not rest.startswith(closing):
                self.refuse(number, "'%s' does not end on its line" % text if rest == "" else "'%s' where a ',' or a '%s' is to be" % (rest, closing))
        return Yaml(items if is_list else values, number), rest[1:]

    def flow_item(self, number, text):
        if text[0] in "[{":
            return self.flow(number, text)
        found = re.match(r"%s|[^,\[\]{}]+" % QUOTED, text)
        if not found:
            self.refuse(number, "'%s' is no item of a list" % text)
        if re.search(r":\s", found[0]) and found[0][0] not in "\"'":
            self.refuse(number, "'%s' is a 'key: value' in a list" % found[0])
        return Yaml(self.word(number, found[0].strip()), number), text[found.end():]

    def flow_pair(self, number, text, values):
        found = KEY.match(text)
        if not found or not text[found.end():]:
            self.refuse(number, "'%s' is no 'key: value'" % text)
        key = self.word(number, found[1])
        if key in values:
            self.refuse(number, "the key '%s' stands twice" % key)
        values[key], rest = self.flow_item(number, text[found.end():])
        return rest
