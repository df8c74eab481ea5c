"""What the words of a call ask for, by "The grammar of words" of docs/FORMATS.md."""

from typing import NamedTuple

from texts import number_of

FORMS = ("text", "json", "replay")
PODS = ("4", "6", "8", "10")

# The options that go with each command.
COMMANDS = {
    "serial": ("form",), "run": ("form",), "replay": ("form",), "check": (), "gen": ("pods", "seed"), "demo": ("pods", "seed"),
    "roll": ("to",), "revert": ("to",),
}
# What an option says where it is absent. One that is not here has to stand.
ABSENT = {"form": "text", "pods": "4", "seed": "0"}


class Job(NamedTuple):
    """A command with the values of the options that go with it."""

    command: str
    options: dict


def job_of(words):
    """What the words ask for, or None where they are none of the grammar."""
    parts = parts_of(words)
    if parts is None:
        return None
    further = [text for option, text in parts if option is None]
    named = [part for part in parts if part[0] is not None]
    given = dict(named)
    if len(further) != 1 or further[0] not in COMMANDS or len(given) < len(named):
        return None
    command = further[0]
    if not set(given) <= set(COMMANDS[command]):
        return None
    options = {option: value_of(option, given.get(option, ABSENT.get(option))) for option in COMMANDS[command]}
    return None if None in options.values() else Job(command, options)


def parts_of(words):
    """The options, each with its value, and with None in the place of an option the further words; or None."""
    parts, rest = [], list(words)
    while rest:
        word = rest.pop(0)
        name, is_one_word, value = word.partition("=")
        if not word.startswith("-"):
            parts.append((None, word))
        elif word == "--":
            return parts + [(None, each) for each in rest]
        elif name not in ("--form", "--pods", "--seed", "--to"):
            return None
        elif is_one_word:
            parts.append((name[2:], value))
        elif rest and not rest[0].startswith("-"):
            parts.append((name[2:], rest.pop(0)))
        else:
            return None
    return parts


def value_of(option, text):
    """The value that an option's text stands for, or None."""
    if text is None:
        return None
    if option == "form":
        return text if text in FORMS else None
    if option == "pods":
        return int(text) if text in PODS else None
    return number_of(text.encode("utf-8", "surrogateescape"))
