"""Says an entry of a journal as a sentence. The sentences are those of the journal player, with what is told there by the picture."""

from operators.texts import many


def rows_words(rows):
    """Assignments, where those that set the same to the same stand together: `firmware = 2 on a1, a2`."""
    sets = {}
    for row in rows:
        name, _, what = row.partition(".")
        sets.setdefault(what, []).append(name)
    return "; ".join("%s on %s" % (what.replace("=", " = "), ", ".join(names)) for what, names in sets.items())


def cause_words(words):
    """The words behind `refused` as a sentence."""
    if words[0] == "level":
        return "%s is at working level %s, and %s needs level %s." % (words[3], words[5], words[1].replace("=", " = "), words[7])
    if words[0] == "off":
        return "the power would be off for %s." % words[1].replace("=", " = ")
    if words[0] == "locked":
        return "%s holds the %s lock of %s." % (words[2], words[3], words[1])
    if words[3] == "cutoff":
        return "%s and %s could be cut off: %s is promised, nothing sure would be left." % (words[1], words[2], words[5])
    return "%s and %s could fall short: %s is promised, %s would be left for sure." % (words[1], words[2], words[5], words[7])


def side_of(words):
    """The devices of the least side in the words behind `refused`, or none where no promise is what bars."""
    return words[words.index("side") + 1:] if words[0] == "broken" else []


def sentence(entry, messages):
    """What an entry says, where `messages` has taken all entries up to it."""
    event, reply = entry.event, entry.reply
    word = event[0]
    if word == "submit":
        return submit_words(event, reply)
    if word == "check":
        return check_words(reply, messages.proposals.get(reply[1]) if reply[1:] else None)
    if word in ("lock", "unlock"):
        return lock_words(event, reply)
    if word == "send":
        return send_words(event, reply)
    if word == "withdraw":
        return withdraw_words(event, reply)
    if word == "deliver":
        return deliver_words(event, reply, messages.entity_of(entry))
    if word == "finish":
        done = reply[0] == "done"
        return "%s finishes its change." % event[1] if done else "%s has no change to finish: none is under way." % event[1]
    if word == "report":
        return "%s sends report %s of what it is." % (event[1], reply[1])
    if word == "hear":
        return hear_words(event, reply, messages.entity_of(entry))
    return fail_words(event)


def lock_words(event, reply):
    """Sentences on a lock that is asked for or given back."""
    application, entity, priority = event[1:]
    if event[0] == "lock":
        if reply[0] == "granted":
            return "%s takes the %s lock of %s." % (application, priority, entity)
        return "%s asks for the %s lock of %s, which %s holds." % (application, priority, entity, reply[1])
    if reply[0] == "released":
        return "%s gives back the %s lock of %s." % (application, priority, entity)
    holder = "nobody" if reply[1] == "-" else reply[1]
    return "%s would give back the %s lock of %s, which %s holds: nothing is given back." % (application, priority, entity, holder)


def check_words(reply, proposal):
    """A sentence on a check, with the words of the `submit` that it decides."""
    if reply[0] == "idle":
        return "The checker finds nothing waiting."
    what = "Ticket %s of %s (%s)" % (reply[1], proposal[1], rows_words(proposal[2:])) if proposal else "Ticket %s" % reply[1]
    if reply[2] == "accepted":
        return "%s is accepted. It is version %s of the target." % (what, reply[3])
    side = side_of(reply[3:])
    told = " On the side of %s: %s." % (reply[4], ", ".join(side)) if side else ""
    return "%s is refused: %s%s" % (what, cause_words(reply[3:]), told)


def submit_words(event, reply):
    if reply[0] == "queued":
        return "%s proposes %s. It waits as ticket %s." % (event[1], rows_words(event[2:]), reply[1])
    return "%s proposes %s, and is turned away: %s wait." % (event[1], rows_words(event[2:]), many(int(reply[1]), "proposal"))


def send_words(event, reply):
    if reply[0] == "sent":
        return "The updater sends command %s to %s." % (reply[1], event[1])
    if reply[0] == "settled":
        return "%s is settled, so nothing is sent to it." % event[1]
    return "Nothing is sent to %s: by what is known, %s can't be set now." % (event[1], reply[1].replace("=", " = "))


def withdraw_words(event, reply):
    if reply[0] == "kept":
        return "Nothing is withdrawn of %s: it is as it was asked to be, or what was asked can be set." % event[1]
    return "What was asked of %s can't be set any more, and is withdrawn: %s, as it was heard last. It is version %s of the target." % (
        event[1], rows_words(reply[2:]), reply[1])


def deliver_words(event, reply, name):
    if reply[0] == "begun":
        return "Command %s arrives, and %s begins its change." % (event[1], name)
    if reply[0] == "stale":
        return "Command %s arrives at %s and is passed over: %s has begun already what entry %s calls for." % (event[1], name, name, reply[1])
    return "Command %s doesn't exist: %s sent." % (event[1], were(int(reply[1]), "command"))


def hear_words(event, reply, name):
    if reply[0] == "taken":
        return "Report %s is heard: it is now what is known of %s." % (event[1], name)
    if reply[0] == "old":
        return "Report %s of %s is heard again or late, and is passed over: report %s is kept." % (event[1], name, reply[1])
    return "Report %s doesn't exist: %s made." % (event[1], were(int(reply[1]), "report"))


def were(count, thing):
    return "%s %s" % (many(count, thing), "was" if count == 1 else "were")


def fail_words(event):
    values = ", ".join(value.replace("=", " ") for value in event[3:])
    return "%s changes of itself: health %s, %s. No report has told it yet." % (event[1], event[2], values)
