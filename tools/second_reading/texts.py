"""Lines, tokens, names and numbers, as docs/FORMATS.md cuts and spells them."""

import re

GREATEST_NUMBER = 4294967295

NAME = re.compile(rb"[A-Za-z][A-Za-z0-9_-]{0,31}\Z")
NUMBER = re.compile(rb"(0|[1-9][0-9]{0,9})\Z")


def lines_of(text):
    """The lines of a text: cut after each LF, without it; a rest that is not empty is a line too.

    One CR at a line's end is dropped.
    """
    lines = text.split(b"\n")
    if lines[-1] == b"":
        lines.pop()
    return [line[:-1] if line.endswith(b"\r") else line for line in lines]


def has_bad_byte(line):
    """Whether a line holds another byte than 32 to 126 and tab."""
    return any(not (32 <= byte <= 126 or byte == 9) for byte in line)


def tokens_of(line):
    """The longest runs of bytes other than space and tab."""
    return [token for token in re.split(rb"[ \t]+", line) if token]


def is_skipped(tokens):
    """Whether a line with these tokens says nothing: it has none, or the first begins with `#`."""
    return not tokens or tokens[0].startswith(b"#")


def is_name(token):
    """Whether a token is spelled as a NAME."""
    return NAME.match(token) is not None


def number_of(token):
    """The number that a token spells, or None where it is misspelled."""
    if NUMBER.match(token) is None:
        return None
    number = int(token)
    return number if number <= GREATEST_NUMBER else None
