"""Lines and words as docs/FORMATS.md cuts them, and the nearest of some names."""

import difflib
import re

NAME = re.compile(r"[A-Za-z][A-Za-z0-9_-]{0,31}\Z")
NUMBER = re.compile(r"(0|[1-9][0-9]{0,9})\Z")


def lines_of(data):
    """The lines of some bytes, one character a byte: cut after each LF, and without one CR at the end."""
    lines = data.decode("latin-1").split("\n")
    if lines[-1] == "":
        lines.pop()
    return [line.removesuffix("\r") for line in lines]


def words_of(line):
    """The longest runs of characters other than space and tab."""
    return [word for word in re.split("[ \t]+", line) if word]


def worded_lines(data):
    """The lines that are not skipped, each with its number and its words."""
    for number, line in enumerate(lines_of(data), 1):
        words = words_of(line)
        if words and not words[0].startswith("#"):
            yield number, words


def nearest(word, names):
    """The name that a word was meant to be, where one is near."""
    by_lower = {name.lower(): name for name in names}
    found = difflib.get_close_matches(word.lower(), by_lower, 1, 0.6)
    return by_lower[found[0]] if found else None


def did_you_mean(word, names):
    """The question behind a word that is none of some names, or nothing where none is near."""
    name = nearest(word, [name for name in names if name != word])
    return "; did you mean '%s'?" % name if name else ""


def many(count, thing, things=None):
    """A count with its thing, of which there may be several."""
    return "%d %s" % (count, thing if count == 1 else things or thing + "s")
