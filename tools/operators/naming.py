"""Gives names of other programs a form that a document takes, each a name of its own, and keeps which is which."""

import json
import re

from operators.texts import NAME

MOST_LETTERS = 32


class Naming:
    """Names of one kind: of groups, or of the devices and links of a group."""

    def __init__(self):
        self.given, self.taken = {}, set()

    def give(self, names):
        """Gives each of these a name: first to those that are names, which keep theirs, and then to the others in order."""
        for name in names:
            if NAME.match(name) and name not in self.taken:
                self.given[name] = name
                self.taken.add(name)
        for name in names:
            if name not in self.given:
                self.given[name] = self.new(spelled(name))

    def new(self, wanted):
        """A name that is not taken: the one that is wanted, or that with a number behind it."""
        name, number = wanted[:MOST_LETTERS], 1
        while name in self.taken:
            number += 1
            end = "-%d" % number
            name = wanted[:MOST_LETTERS - len(end)] + end
        self.taken.add(name)
        return name


def spelled(name):
    """The letters of a name, with `_` for what may not stand in one."""
    text = re.sub(r"[^A-Za-z0-9_-]", "_", name)
    return text if re.match("[A-Za-z]", text) else "n" + text


def in_ascii(name):
    """A name as a comment may have it: in quotes, with escapes where it is not ASCII."""
    return json.dumps(name)
