"""The words that are tried on a text: `roll` and `revert` with a number by chance, in each spelling, and words that are mostly bad."""

import random

from comparisons import Reading, difference_at, has_one_ending, wanted_of_words

GREATEST = 4294967295

ODD_WORDS = (
    "--to", "--to=", "--to=2", "--to=2=2", "--to=02", "--to=+2", "--to=-2", "--to= 2", "--to=2 ", "--to=4294967295", "--to=4294967296",
    "--to=99999999999", "--to=two", "--To=2", "--too=2", "-to=2", "--t=2", "-t", "--=2", "--", "-", "", "0", "2", "007", "+2", "-2",
    "4294967295", "4294967296", "42949672950", "--form", "--form=text", "text", "json", "--pods=4", "--pods", "4", "--seed=0", "--seed",
    "--help", "--version", "roll", "revert", "Roll", "rol", "rolls", "reverts", "serial", "check", "replay", "run", "gen", "demo",
)


def difference_of_words(program, words, text, reading=None, count=None):
    """What the program says of a text by words that have one right ending, where it is not that ending, or None; counts what was wanted."""
    wanted = wanted_of_words(words, reading or Reading(text))
    if count is not None:
        count.update(told_in(wanted))
    return difference_at(program, words, text, wanted)


def told_in(wanted):
    """What kinds of lines a plan or a revert has: a word for each of its lines, and of each verdict that was asked for."""
    lines = [line.split(" ") for line in wanted[1].splitlines()]
    asked = [line[1] for line in lines if line[0] == "revert" and line[2] == "asked"]
    group, last = None, {}
    for line in lines:
        if line[0] == "group":
            group = line[1]
        elif line[0] == "receipt" and group in asked:
            last[group] = line
        elif line[0] in ("left", "stuck"):
            yield "roll: %s" % " ".join((line[0], line[3 if line[0] == "left" else 2]))
        elif line[0] == "batch":
            yield "roll: batch%s" % (" of 16" if len(line) == 18 else "")
        elif line[0] == "same":
            yield "roll: same"
        elif line[0] == "revert" and line[2] != "asked":
            yield "revert: %s" % line[2]
        elif line[0] == "fault" and line[1] != "input":
            yield " ".join(line[:2])
    for line in last.values():
        yield "revert: asked, %s" % " ".join(line[3:5] if line[3] == "refused" else line[3:4])


def words_for(command, name, reading):
    """The words with which a named text is tried; of the command `words` any words."""
    makers = {"roll": roll_words, "revert": revert_words, "words": words_by_chance}
    return makers[command](random.Random("%s %s" % (command, name)), reading)


def spelled(chance, command, number):
    """The words of a command with its number, in one of the spellings that the grammar has."""
    option = chance.choice((["--to", str(number)], ["--to", str(number)], ["--to=%d" % number]))
    if chance.random() < 0.2:
        return tuple(option + ["--", command])
    if chance.random() < 0.1:
        return tuple(option + [command, "--"])
    return tuple(chance.choice((option + [command], [command] + option)))


def roll_words(chance, _):
    """A firmware that random documents have, mostly."""
    return spelled(chance, "roll", chance.randint(1, 3) if chance.random() < 0.9 else chance.choice((0, 4, GREATEST)))


def revert_words(chance, reading):
    """A version from 0 to two above the latest of a group, mostly."""
    latest = max((standing.version() for standing in reading.run.standings), default=0) if reading.run else 0
    if chance.random() < 0.15:
        return spelled(chance, "revert", chance.choice((0, 0, 0, 0, GREATEST)))
    return spelled(chance, "revert", chance.randint(0, latest + 2))


def words_by_chance(chance, reading):
    """Words near to those of the two commands; what they ask for has one ending."""
    while True:
        words = list(chance.choice((roll_words, revert_words))(chance, reading))
        for _ in range(chance.choice((0, 1, 1, 1, 1, 2, 2, 3))):
            chance.choice((put_in, put_in, put_in_place, left_out, again, swapped))(chance, words)
        if has_one_ending(words):
            return tuple(words)


def put_in(chance, words):
    words.insert(chance.randint(0, len(words)), chance.choice(ODD_WORDS))


def put_in_place(chance, words):
    if words:
        words[chance.randrange(len(words))] = chance.choice(ODD_WORDS)


def left_out(chance, words):
    if words:
        del words[chance.randrange(len(words))]


def again(chance, words):
    if words:
        words.insert(chance.randint(0, len(words)), chance.choice(words))


def swapped(chance, words):
    if len(words) > 1:
        first, second = chance.sample(range(len(words)), 2)
        words[first], words[second] = words[second], words[first]
