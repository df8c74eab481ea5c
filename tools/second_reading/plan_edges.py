"""Documents for `roll` and `revert` at limits, and small ones that chance seldom makes; and words at the edges of the grammar.

Each document has a name, a text, and the words with which it is tried.
"""

from edges import NETWORK, full_journal, text_of
from generated import generated_text

ROWS_OF_ALL = ["%s.%s=2" % (name, word) for name in ("t1", "t2", "a1", "a2") for word in ("firmware", "config")]
LINK_ROWS = ["l%d.%s" % (number, row) for number in range(1, 5) for row in ("power=0", "iface=2")]
PAIR = ("group dc1", "device a1 switch", "device a2 switch", "link l1 a1 a2 5")


def rolls(*numbers):
    return tuple(("roll", "--to", str(number)) for number in numbers)


def reverts(*numbers):
    return tuple(("revert", "--to", str(number)) for number in numbers)


def plan_edges():
    """Triples of a name, a text and the lists of words."""
    yield from edges_of_both()
    yield from edges_of_roll()
    yield from edges_of_revert()


def large_plan_edges():
    """Generated ones, and those whose journals get full: behind 199,998 entries a Submit and its Check fit in, behind 199,999 the first."""
    for seed in (0, 7):
        text = generated_text(4, seed)[1].encode()
        yield "a generated document with seed %d" % seed, text, rolls(1, 2 + seed, 3 + seed) + reverts(0, 1, 2, 3, 4)
    fits, odd = full_journal(195, 150), b"lock dc1 t1 low\n"
    second = text_of("group g0", "device s switch", *(line.decode() for line in (fits + odd).split(b"\n")[1:-1]))
    yield "room for a revert", fits, rolls(1) + reverts(0, 1, 2, 5, 6)
    yield "room for the Submit of a revert alone", fits + odd, rolls(1) + reverts(0, 1, 2, 5, 6)
    yield "no room for a revert", full_journal(195, 151), rolls(1) + reverts(0, 1, 2, 5, 6)
    yield "a full journal that the scripts meet", full_journal(195, 152), rolls(1) + reverts(0, 2)
    yield "room for the Submit alone in the second group", second, rolls(2) + reverts(0, 1, 2)


def edges_of_both():
    both = rolls(1, 2) + reverts(0, 1)
    yield "no lines at all", b"", both
    yield "no groups", text_of(), both
    yield "no groups, and an application", text_of("app up"), both
    yield "a journal behind the document", text_of(*NETWORK, "journal dc1"), both
    yield "a group without devices", text_of("group g", "app up", "await g"), both
    yield "no applications", text_of(*NETWORK), both
    yield "no applications, and two groups", text_of(*NETWORK, "group dc2", "device s switch", "open s.firmware=2"), both
    yield "an application without commands", text_of(*NETWORK, "app up"), both
    yield "the greatest numbers", text_of(*NETWORK, "open a1.firmware=4294967295", "app up"), rolls(4294967295, 0) + reverts(4294967295)


def edges_of_roll():
    for count in (15, 16, 17, 32, 33):
        yield "%d devices that may join at once" % count, text_of(*switches(count)), rolls(2)
    yield "a device behind a full batch that is off", text_of(*switches(18), "open s17.power=0"), rolls(2)
    yield "a device behind a full batch that is locked", text_of(*switches(18), "app up", "lock dc1 s17 low"), rolls(2)
    yield "a device behind a full batch that is the same", text_of(*switches(18), "open s17.firmware=2"), rolls(2)
    yield "devices that are stuck before a full batch", text_of(*switches(19), "health s1 1", "open s2.power=0"), rolls(2)
    yield "names that are declared from behind", text_of("group dc1", *("device %s switch" % name for name in "zyx")), rolls(2)
    yield "ToRs that are declared last", text_of(NETWORK[0], *NETWORK[3:5], *NETWORK[1:3], *NETWORK[5:]), rolls(2)
    yield "a target that is not reached", text_of(*NETWORK, "app up", "propose dc1 a1.firmware=2"), rolls(1, 2, 3)
    yield "a failure that was heard", text_of(*NETWORK, "app up", "fail dc1 a1 5 firmware=2", "poll dc1 a1"), rolls(1, 2)
    yield "a failure that was not heard", text_of(*NETWORK, "app up", "fail dc1 a1 0 firmware=2"), rolls(1, 2)
    yield "one that settles in the batch before", text_of(*NETWORK, "app up", "propose dc1 a1.config=2"), rolls(2)
    yield "power that is off in the target", text_of(*NETWORK, "app up", "propose dc1 a1.power=0"), rolls(2)
    yield "power that was off", text_of(*NETWORK, "open a1.power=0", "app up", "propose dc1 a1.power=1", "settle dc1 2"), rolls(2)
    yield "a device that works at level 1", text_of(*NETWORK, "health a1 1"), rolls(2)
    for owner in ("up", "te"):
        for priority in ("low", "high"):
            lines = ("app up", "app te")
            lines = lines[:2 if owner == "te" else 1] + ("lock dc1 a1 " + priority,) + lines[2 if owner == "te" else 1:]
            yield "a %s lock of %s" % (priority, owner), text_of(*NETWORK, *lines), rolls(2)
    yield "both locks", text_of(*NETWORK, "app up", "lock dc1 a1 low", "app te", "lock dc1 a1 high"), rolls(2)
    yield "a lock that was given back", text_of(*NETWORK, "app up", "lock dc1 a1 low", "unlock dc1 a1 low"), rolls(2)
    yield "a lock of a link", text_of(*NETWORK, "app up", "lock dc1 l1 high"), rolls(2)
    yield "left by several passes", text_of(*three_ways()), rolls(2)
    yield "left by several passes, and then stuck", text_of(*three_ways(), "app up", "lock dc1 a4 low"), rolls(2)
    yield "two groups of one form", text_of(*NETWORK, "group dc2", *NETWORK[1:]), rolls(2)


def switches(count):
    return ("group dc1",) + tuple("device s%d switch" % number for number in range(1, count + 1))


def three_ways():
    """Two ToRs with four switches between them, of which a promise lets one go at a time, and one beside them."""
    yield from ("group dc1", "device t1 tor", "device t2 tor")
    yield from ("device a%d switch" % number for number in range(1, 5))
    yield "device b switch"
    for number in range(1, 5):
        yield "link l%d t1 a%d 10" % (number, number)
        yield "link m%d a%d t2 10" % (number, number)
    yield "promise t1 t2 75"


def edges_of_revert():
    alone, two = ("app up",), ("app up", "propose dc1 a1.firmware=2", "await dc1", "settle dc1 1", "propose dc1 a2.firmware=2")
    every = reverts(0, 1, 2, 3, 4)
    yield "the example", text_of(*NETWORK, *two), every + rolls(1, 2)
    yield "two versions of one variable", text_of(*PAIR, *alone, "propose dc1 a1.config=2", "propose dc1 a1.config=3"), every
    yield "there and back", text_of(*PAIR, *alone, "propose dc1 a1.config=2", "propose dc1 a1.config=1"), every
    yield "a version that changes nothing", text_of(*PAIR, *alone, "propose dc1 a1.config=1", "propose dc1 a1.config=2"), every
    yield "a refusal among the versions", text_of(
        *PAIR, *alone, "propose dc1 a1.config=2", "propose dc1 a1.power=0 a1.config=9", "propose dc1 a2.config=4"), every
    yield "what opened otherwise", text_of(*PAIR, "open a1.config=7", *alone, "propose dc1 a1.config=2 l1.iface=3"), every
    yield "what failed and was heard", text_of(
        *PAIR, *alone, "propose dc1 a1.config=2", "settle dc1 1", "fail dc1 a1 5 config=1", "poll dc1 a1"), every
    yield "reads", text_of(*PAIR, *alone, "propose dc1 a1.config=2", "await dc1", "read dc1 a1.config", "readat dc1 2 a1.config"), every
    low = ("await dc1", "fail dc1 a1 1", "fail dc1 a2 2", "poll dc1 a1", "poll dc1 a2")
    yield "levels that are too low by now", text_of(*PAIR, *alone, "propose dc1 a2.config=2 a1.config=2 a1.firmware=2", *low), every
    yield "levels that are too low of a device and a link", text_of(*PAIR, *alone, "propose dc1 l1.iface=2 a2.config=2", *low), every
    yield "power that is off by now", text_of(
        *PAIR, *alone, "propose dc1 a1.config=2", "propose dc1 a1.power=0", "propose dc1 a2.power=0"), every
    yield "power that was off then", text_of(*PAIR, *alone, "propose dc1 a1.power=0", "propose dc1 a1.config=2 a1.power=1"), every
    yield "a lock of the first application", text_of(*PAIR, *alone, "lock dc1 a1 high", "propose dc1 a1.config=2"), every
    yield "a lock of the second application", text_of(
        *PAIR, *alone, "propose dc1 a1.config=2", "await dc1", "app te", "read dc1 a1.config", "read dc1 a1.config", "lock dc1 a1 low"), every
    yield "proposals of the second application", text_of(*PAIR, *alone, "app te", "propose dc1 a1.config=2", "lock dc1 a1 low"), every
    yield "a promise that would break", text_of(
        *NETWORK, *alone, "propose dc1 a1.firmware=2", "await dc1", "settle dc1 1", "propose dc1 a2.firmware=2", "await dc1",
        "settle dc1 1"), every
    yield "links", text_of(*PAIR, *alone, "propose dc1 l1.iface=2 l1.power=0 a1.config=2", "settle dc1 2"), every
    many = [" ".join(words) for words in (ROWS_OF_ALL, LINK_ROWS, ["s%d.config=2" % number for number in range(1, 17)])]
    for further in (("t1.config=3",), ("t2.routing=0",)):
        yield "%s behind 16 variables" % further, text_of(
            *NETWORK[:-1], *alone, "propose dc1 " + many[0], "propose dc1 " + many[1], "propose dc1 " + further[0]), every
    yield "a variable of 16 devices", text_of(*switches(17), *alone, "propose dc1 " + many[2]), every
    yield "a variable of 17 devices", text_of(*switches(17), *alone, "propose dc1 " + many[2], "propose dc1 s17.config=2"), every
    yield "four groups that answer otherwise", text_of(
        *PAIR, "group dc2", *PAIR[1:], "group dc3", *switches(17)[1:], "group dc4", *PAIR[1:], *alone,
        "propose dc1 a1.config=2", "propose dc1 a1.config=3", "propose dc2 a1.config=1",
        "propose dc3 " + many[2], "propose dc3 s17.config=2", "propose dc4 a1.config=2", "read dc4 a1.config"), every
    yield "64 that wait at the end", text_of(*PAIR, *alone, *("propose dc1 a1.config=%d" % number for number in range(64))), reverts(0, 1, 64, 65)


# What each list of words makes of Q is told by `wanted_of_words`.
WORD_EDGES = tuple(tuple(line.split(" ")) for line in """\
roll
revert
roll --to
revert --to
--to roll
--to revert
--to 2
--to=2
roll 2
revert 0
roll --to 2
roll --to=2
--to 2 roll
--to=2 roll
--to 2 -- roll
--to=2 -- revert
roll --to 2 --
-- roll --to 2
roll -- --to=2
-- -- roll
--to -- 2 roll
--to=0 revert
revert --to 0
revert --to 4294967295
revert --to 4294967296
revert --to 10000000000
revert --to 18446744073709551616
roll --to 18446744073709551618
roll --to=+2
roll --to=-2
roll --to -2
roll --to -
roll --to=
roll --to 02
roll --to 00
roll --to 2.
roll --to 0x2
roll --to two
roll --to=2=2
roll --to 2 2
roll --to 2 --to 2
roll --to=2 --to=3
roll --to 2 roll
roll --to 2 revert
roll revert --to 2
roll --to 2 --form text
revert --to 0 --form=json
revert --form replay
roll --to 2 --pods 4
roll --to 2 --seed=0
serial --to 2
serial --to=0 --form text
check --to 0
replay --to 0
run --to 1
gen --to 1
demo --to=1
Roll --to 2
rol --to 2
rollback --to 2
reverts --to 2
roll --too 2
roll --To=2
roll -to 2
roll --t 2
roll -t 2
roll --version 2
revert --help
roll --to 2 --help
help roll""".split("\n")) + (
    ("roll", "--to", ""), ("roll", "--to", " 2"), ("roll", "--to=2 "), ("roll", "--to 2"), ("", "roll", "--to=2"), ("roll --to 2",),
    ("roll", "--to", "2\n"), ("roll", "--to", "\u0662"), ("roll ", "--to=2"), ("revert", "--to=\t0"),
)
