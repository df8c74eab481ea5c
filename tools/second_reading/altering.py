"""Alters the journals that stand behind a document: one reply, within the grammar; or entries; or a line of the text."""

from broken_lines import (
    changed_character, fewer_tokens, line_again, line_left_out, line_moved, more_tokens, number_at_its_end, other_token,
    swapped_tokens, token_of_another_line,
)
from document import Row
from journal import (
    Accepted, Begun, Blocked, Check, Decided, Deliver, Done, Entry, Fail, Finish, Full, Granted, Hear, Held, Idle, IsLocked,
    Kept, LacksLevel, LacksPower, Lock, NoSuch, NotBusy, NotYours, Old, Queued, Released, Report, Reported, Send, Sent, Settled, Stale,
    Submit, Taken, Unlock, Withdraw, Withdrawn, WouldBreak,
)
from promises import Break
from texts import GREATEST_NUMBER


def with_reply_altered(chance, document, journals):
    """The journals with another reply at one entry, and the group and the number of that entry; or None."""
    places = [(group, place) for group, entries in enumerate(journals) for place, entry in enumerate(entries)
              if not isinstance(entry.event, Fail)]
    if not places:
        return None
    group, place = chance.choice(places)
    entry = journals[group][place]
    maker = ReplyMaker(chance, document, document.groups[group], place + 1)
    for _ in range(50):
        reply = maker.reply(entry)
        if reply != entry.reply:
            altered = [list(entries) for entries in journals]
            altered[group][place] = Entry(entry.event, reply)
            return altered, group, place + 1
    return None


class ReplyMaker:
    """Makes replies that an event may have by the grammar, mostly near to the one that it has."""

    def __init__(self, chance, document, group, number):
        self.chance, self.document, self.group, self.number = chance, document, group, number

    def pick(self, items):
        return self.chance.choice(items)

    def near(self, reply):
        """A number that is near to the one of a reply, where it has one."""
        number = reply[0] if reply and isinstance(reply[0], int) else 0
        return max(0, self.pick((number - 1, number + 1, number + 2, 0, 1, 2, GREATEST_NUMBER)))

    def application(self):
        return self.chance.randrange(len(self.document.applications))

    def entity(self):
        return self.pick(self.group.entities())

    def row(self):
        entity = self.entity()
        variable = self.chance.randrange(len(entity.variables()))
        return Row(entity, variable, self.value_of(entity, variable))

    def value_of(self, entity, variable):
        is_switch = entity.variables()[variable] in ("power", "routing")
        return self.pick((0, 1) if is_switch else (0, 1, 2, 3, GREATEST_NUMBER))

    def rows_of(self, entity):
        """One row or more of an entity, in the order of variables."""
        places = self.chance.sample(range(len(entity.variables())), self.chance.randint(1, len(entity.variables())))
        return tuple(Row(entity, place, self.value_of(entity, place)) for place in sorted(places))

    def reply(self, entry):
        event, reply = entry
        number = self.near(reply)
        if isinstance(event, Check):
            return self.receipt(reply)
        if isinstance(event, Submit):
            return self.pick((Queued(number), Full(number)))
        if isinstance(event, Lock):
            return self.pick((Granted(), Held(self.application())))
        if isinstance(event, Unlock):
            return self.pick((Released(), NotYours(None), NotYours(self.application())))
        if isinstance(event, Send):
            return self.pick((Sent(number), Settled(), Blocked(self.row())))
        if isinstance(event, Deliver):
            return self.pick((Begun(), Stale(number), NoSuch(number)))
        if isinstance(event, Finish):
            return self.pick((Done(), NotBusy()))
        if isinstance(event, Hear):
            return self.pick((Taken(), Old(number), NoSuch(number)))
        if isinstance(event, Withdraw):
            return self.pick((Kept(), Withdrawn(number, self.rows_of(event.entity))))
        assert isinstance(event, Report)
        return Reported(number)

    def receipt(self, reply):
        if isinstance(reply, Idle):
            return Decided(self.pick((1, 2)), self.number, Accepted(1))
        if self.chance.random() < 0.15:
            return Idle()
        if self.chance.random() < 0.15:
            return Decided(self.near((reply.ticket,)), self.number, reply.verdict)
        near = self.chance.random() < 0.6
        return Decided(reply.ticket, self.number, self.near_verdict(reply.verdict) if near else self.verdict())

    def verdict(self):
        word = self.pick(("accepted", "level", "off", "locked", "broken"))
        if word == "accepted" or (word == "broken" and not self.group.promises):
            return Accepted(self.pick((0, 1, 2, GREATEST_NUMBER)))
        if word == "level":
            return LacksLevel(self.row(), self.entity(), self.pick(range(6)), self.pick((1, 2, 3, 4)))
        if word == "off":
            return LacksPower(self.row())
        if word == "locked":
            return IsLocked(self.entity(), self.application(), self.pick(("low", "high")))
        return WouldBreak(Break(
            self.chance.randrange(len(self.group.promises)), self.pick((True, False)), self.pick((0, 1, 10, GREATEST_NUMBER)),
            self.pick((0, 1, 10, GREATEST_NUMBER)), self.side()))

    def side(self):
        devices = range(len(self.group.devices))
        return tuple(sorted(self.chance.sample(devices, self.chance.randint(1, len(devices)))))

    def near_verdict(self, verdict):
        """A verdict of the same kind with another of its parts."""
        if isinstance(verdict, Accepted):
            return Accepted(self.near(verdict))
        if isinstance(verdict, LacksLevel):
            part = self.pick((("row", self.row()), ("entity", self.entity()), ("has", self.pick(range(6))), ("needs", self.pick((1, 2, 3, 4)))))
        elif isinstance(verdict, LacksPower):
            part = "row", self.row()
        elif isinstance(verdict, IsLocked):
            part = self.pick((("entity", self.entity()), ("holder", self.application()), ("priority", self.pick(("low", "high")))))
        else:
            broken = verdict.broken
            part = "broken", broken._replace(**dict([self.pick((
                ("promise", self.chance.randrange(len(self.group.promises))), ("is_cut_off", not broken.is_cut_off),
                ("need", self.near((broken.need,))), ("has", self.near((broken.has,))), ("side", self.side())))]))
        return verdict._replace(**dict([part]))


def with_entries_altered(chance, journals):
    """The journals with an entry left out, or twice, or with two neighbours swapped; what follows is numbered anew."""
    places = [(group, place) for group, entries in enumerate(journals) for place in range(len(entries))]
    if not places:
        return None
    group, place = chance.choice(places)
    altered = [list(entries) for entries in journals]
    entries = altered[group]
    way = chance.choice(("left out", "twice", "swapped", "moved", "cut"))
    if way == "left out":
        del entries[place]
    elif way == "twice":
        entries.insert(place, entries[place])
    elif way == "swapped":
        entries[place:place + 2] = reversed(entries[place:place + 2])
    elif way == "moved":
        entry = entries.pop(place)
        entries.insert(chance.randint(0, len(entries)), entry)
    else:
        del entries[place:]
    return altered


WAYS = (other_token, other_token, token_of_another_line, token_of_another_line, changed_character, fewer_tokens, more_tokens,
        swapped_tokens, swapped_tokens, number_at_its_end, line_again, line_left_out, line_moved)

ODD_TOKENS = (
    ":", "::", "journal", "submit", "check", "lock", "unlock", "send", "deliver", "finish", "report", "hear", "fail", "withdraw", "queued", "full",
    "receipt", "idle", "granted", "held", "released", "notyours", "sent", "settled", "blocked", "begun", "stale", "nosuch", "done",
    "notbusy", "reported", "taken", "old", "changed", "withdrawn", "kept", "accepted", "refused", "level", "of", "has", "needs", "off", "locked", "broken",
    "cutoff", "short", "need", "side", "-", "#", "1", "0", "up", "te", "a1", "t1", "l1",
)


def with_line_broken(chance, lines):
    """The lines of a document with journals, with one of the journals' lines broken; or None where there is none."""
    heads = [place for place, line in enumerate(lines) if line.startswith("journal ")]
    if not heads:
        return None
    head, tail = lines[:heads[0]], lines[heads[0]:]
    if chance.random() < 0.25:
        return head + chance.choice(WAYS)(chance, tail)
    way = chance.choice(JOURNAL_WAYS)
    # A way that has a word of its own is for lines with that word.
    places = [place for place, line in enumerate(tail) if WORD_OF_WAY.get(way, "") in line]
    place = chance.choice(places or range(len(tail)))
    tokens = way(chance, tail[place].split(), tail)
    return head + tail[:place] + [" ".join(tokens)] + tail[place + 1:]


def parts(tokens):
    """What stands before the `:` of an entry, and what behind it."""
    place = tokens.index(":") if ":" in tokens else len(tokens)
    return tokens[:place], tokens[place + 1:]


def odd_token(chance, tokens, _):
    at = chance.randint(0, len(tokens))
    return tokens[:at] + [chance.choice(ODD_TOKENS)] + tokens[at + chance.randint(0, 1):]


def another_reply(chance, tokens, lines):
    """The reply of another entry, or with its event too."""
    other = chance.choice(lines).split()
    if chance.random() < 0.2:
        return tokens[:1] + other[1:]
    return parts(tokens)[0] + [":"] + parts(other)[1]


def another_number(chance, tokens, _):
    number = int(tokens[0]) if tokens[0].isdigit() else 1
    return [chance.choice((str(number + 1), str(max(number - 1, 0)), "0%d" % number, "0", "1", "4294967296", "%dx" % number))] + tokens[1:]


def another_end(chance, tokens, _):
    """A number of the entry at an end of its range, or past it."""
    places = [place for place, token in enumerate(tokens[1:], 1) if token.isdigit()]
    if not places:
        return tokens
    place = chance.choice(places)
    return tokens[:place] + [chance.choice(("0", "1", "5", "6", "4294967295", "4294967296", "01", "-1"))] + tokens[place + 1:]


def another_journal(chance, tokens, lines):
    """A `journal` line in the place of this one, or another name on it."""
    names = [line.split()[1] for line in lines if line.startswith("journal ")]
    return chance.choice((["journal"], ["journal", chance.choice(names)], ["journal", "dc9"], ["journal", "1a"],
                          ["journal", chance.choice(names), "1"], tokens + [chance.choice(names)]))


def another_promise(chance, tokens, _):
    """The ends of a promise that would break swapped, or one of them another device."""
    if "broken" not in tokens:
        return tokens
    place = tokens.index("broken") + 1
    ends = tokens[place:place + 2]
    other = chance.choice(("t1", "t2", "t3", "a1", "l1", "zz", "1a"))
    return tokens[:place] + chance.choice((ends[::-1], ends[::-1], [ends[0], other], [other, ends[-1]], ends[:1])) + tokens[place + 2:]


def another_side(chance, tokens, _):
    """A side that is turned round, or has a device twice, or one more, or none."""
    if "side" not in tokens:
        return tokens
    place = tokens.index("side") + 1
    side = tokens[place:]
    more = chance.choice(("t1", "a1", "a9", "l1", "1a", "-"))
    return tokens[:place] + chance.choice((side[::-1], side + side[-1:], side[:1] + side, [], side + [more], [more] + side))


def another_failure(chance, tokens, _):
    """Values of a failure left out, twice, or in another order."""
    if tokens[1:2] != ["fail"]:
        return tokens
    before, reply = parts(tokens)
    head, values = before[:4], before[4:]
    shuffled = chance.sample(values, len(values))
    values = chance.choice((values[:-1], values[1:], values + values[-1:], values + ["iface=1"], shuffled, [], values[:1] + values))
    return head + values + [":"] + reply


def another_submit(chance, tokens, _):
    """An assignment twice, or more than there may be, or of another form."""
    before, reply = parts(tokens)
    if tokens[1:2] != ["submit"] or len(before) < 4:
        return tokens
    rows = before[3:]
    everything = ["%s.%s=1" % (name, word) for name in ("t1", "t2", "a1", "a2", "a3") for word in ("power", "firmware", "config", "routing")]
    rows = chance.choice((rows + rows[:1], everything[:16], everything[:17], everything[:17] + ["a1.firmware=x"], rows + ["l1.iface"], []))
    return before[:3] + rows + [":"] + reply


JOURNAL_WAYS = (odd_token, odd_token, another_reply, another_reply, another_number, another_end, another_end, another_journal,
                another_promise, another_side, another_failure, another_submit)
WORD_OF_WAY = {another_promise: " broken ", another_side: " side ", another_failure: " fail ", another_submit: " submit "}
