"""The forms of a document's lines as docs/FORMATS.md has them, by which a fault that the program told is found in its line and put in
words. No line is judged by them."""

from typing import NamedTuple

GREATEST_NUMBER = 4294967295


class Slot(NamedTuple):
    """What stands in a place of a line: what it is, of fixed words which, and of a number its range, in words too."""

    what: str
    words: tuple = ()
    range: str = ""
    least: int = 0
    most: int = GREATEST_NUMBER


NEW_GROUP, GROUP = Slot("new group"), Slot("group")
NEW_APPLICATION, APPLICATION = Slot("new application"), Slot("application")
NEW_ENTITY, ENTITY, DEVICE, END = Slot("new entity"), Slot("entity"), Slot("device"), Slot("end")
ASSIGNMENT, VARIABLE, SETTING = Slot("assignment"), Slot("variable"), Slot("setting")
KIND = Slot("fixed", ("command", "report"))
PRIORITY = Slot("fixed", ("low", "high"))
HEALTH = Slot("number", range="0 to 5 of a device, 0 or 1 of a link", most=5)


def number(text, least=0, most=GREATEST_NUMBER):
    return Slot("number", range=text, least=least, most=most)


class Form(NamedTuple):
    text: str
    slots: tuple
    limit: str = ""


# The last slot of a form whose text ends with `..` may stand again.
FORMS = {
    "group": Form("group NAME", (NEW_GROUP,), "16 groups"),
    "device": Form("device NAME tor|switch", (NEW_ENTITY, Slot("fixed", ("tor", "switch"))), "512 devices of a group, 64 of them ToRs"),
    "link": Form("link NAME END END CAPACITY", (NEW_ENTITY, END, END, number("1 to 1000000", 1, 1000000)), "4,096 links of a group"),
    "promise": Form("promise TOR TOR PERCENTAGE", (DEVICE, DEVICE, number("0 to 100", 0, 100))),
    "open": Form("open ENTITY.VARIABLE=NUMBER", (ASSIGNMENT,)),
    "health": Form("health ENTITY NUMBER", (ENTITY, HEALTH)),
    "drop": Form("drop GROUP command|report N", (GROUP, KIND, number("from 1", 1)), "1,024 wire lines of a group"),
    "repeat": Form("repeat GROUP command|report N M", (GROUP, KIND, number("from 1", 1), number("at least the one before it")), "1,024 wire lines of a group"),
    "hold": Form("hold GROUP command|report N M", (GROUP, KIND, number("from 1", 1), number("above the one before it")), "1,024 wire lines of a group"),
    "app": Form("app NAME", (NEW_APPLICATION,), "32 applications"),
    "propose": Form("propose GROUP ENTITY.VARIABLE=NUMBER ..", (GROUP, ASSIGNMENT), "16 rows of a proposal"),
    "await": Form("await GROUP", (GROUP,)),
    "settle": Form("settle GROUP ROUNDS", (GROUP, number("1 to 64", 1, 64))),
    "lock": Form("lock GROUP ENTITY low|high", (GROUP, ENTITY, PRIORITY)),
    "unlock": Form("unlock GROUP ENTITY low|high", (GROUP, ENTITY, PRIORITY)),
    "read": Form("read GROUP ENTITY.VARIABLE", (GROUP, VARIABLE)),
    "readat": Form("readat GROUP VERSION ENTITY.VARIABLE", (GROUP, number("0 to 4294967295"), VARIABLE)),
    "fail": Form("fail GROUP ENTITY HEALTH VARIABLE=NUMBER ..", (GROUP, ENTITY, HEALTH, SETTING)),
    "poll": Form("poll GROUP ENTITY", (GROUP, ENTITY)),
    "order": Form("order APPLICATION ..", (APPLICATION,)),
}
COMMAND_LIMIT = "1,024 commands of an application"

# The words of a line by the phase in which it stands.
PHASES = (
    ("group", "device", "link", "promise", "open", "health"),
    ("drop", "repeat", "hold"),
    ("app", "propose", "await", "settle", "lock", "unlock", "read", "readat", "fail", "poll"),
    ("order",),
)
PHASE_NAMES = ("groups with their lines", "drop, repeat and hold lines", "applications with their commands", "order lines")

EVENTS = {
    "submit": ("queued", "full"), "check": ("receipt", "idle"), "lock": ("granted", "held"), "unlock": ("released", "notyours"),
    "send": ("sent", "settled", "blocked"), "deliver": ("begun", "stale", "nosuch"), "finish": ("done", "notbusy"),
    "report": ("reported",), "hear": ("taken", "old", "nosuch"), "fail": ("changed",),
    "withdraw": ("withdrawn", "kept"),
}


def slots_of(words):
    """The words behind a line's first, each with its slot, as far as there are slots."""
    form = FORMS[words[0]]
    slots = list(form.slots)
    if form.text.endswith(" .."):
        slots += [slots[-1]] * len(words)
    return list(zip(words[1:], slots))
