"""The picture that the journal player makes of documents with their journals, by looking back over the entries.

    python3 tools/second_reading/picture.py --write FOLDER --cases 100
    python3 tools/second_reading/picture.py --program ./player --cases 100

The first writes, for each case, a text that the player reads (NAME.txt) and the picture that it should show (NAME.json). The second runs the
player on each and compares.
"""

import argparse
import json
import pathlib
import re
import subprocess
import sys

from cases import case_text
from comparisons import Reading
from document import POWER
from journal import (
    Accepted, Blocked, Check, Decided, Deliver, Fail, Hear, IsLocked, LacksLevel, LacksPower, Lock, Queued, Report, Send, Submit, Unlock,
    event_text, reply_text,
)
from judging import altered
from looking_back import FEW_ENTRIES, Past
from promises import up_links
from standing import carries, level_of

GREATEST = {False: 5, True: 1}
MOST_BEFORE = 60                        # half of the pages begin behind fewer entries than so many


def number_of(group, entity):
    return entity.number + (len(group.devices) if entity.is_link else 0)


def known_since(past, entity):
    """The number of the entry by which the entity made the report that is kept of it; 0 where that is the opening's."""
    makers = [number for number, entry in past.numbered(Report) if entry.event.entity == entity]
    return ([0] + makers)[past.observed[entity].number]


def known_health(past, entity):
    """The entity's health when it made that report, where this does not hide it."""
    seen = past.observed[entity]
    return None if seen.is_busy or seen.values[POWER] == 0 else past.at(known_since(past, entity)).health(entity)


def state(past, entity):
    """What is shown of an entity after some entries."""
    values, busy, seen = past.values(entity), past.is_busy(entity), past.observed[entity]
    works = level_of(entity, past.health(entity), busy, values)
    actual = past.actual()
    if busy:
        carriage = "busy"
    elif carries(entity, values, works):
        carriage = "up"
    elif values[POWER] == 0:
        carriage = "off"
    else:
        carriage = "failed" if works < GREATEST[entity.is_link] else "drained"
    if entity in past.sure():
        known = "sure"
    elif past.is_settled(entity):
        known = "settled"
    else:
        known = "blocked" if isinstance(past.reply_to(Send(entity)), Blocked) else "waiting"
    shown = {
        "is": carriage, "known": known, "untold": int(past.is_untold(entity)), "target": list(past.target[entity]),
        "seen": list(seen.values), "real": list(values), "level": seen.level, "works": works,
        "stamp": past.stamp(entity), "fence": seen.fence, "told": known_since(past, entity), "health": known_health(past, entity),
        "low": past.holder(entity, "low"), "high": past.holder(entity, "high"),
    }
    if entity.is_link:
        shown["open"] = int(entity.number in up_links(past.group, actual))
    return shown


def about(past, entry):
    """The numbers of the entities that an entry is about."""
    event, reply = entry
    if isinstance(event, Submit):
        entities = {row.entity for row in event.rows}
    elif isinstance(event, Check):
        entities = {row.entity for row in past.pending[0][1]} if isinstance(reply, Decided) else set()
    elif isinstance(event, (Deliver, Hear)):
        messages = past.commands if isinstance(event, Deliver) else past.reports
        entities = {messages[event.number - 1].entity} if 1 <= event.number <= len(messages) else set()
    else:
        entities = {event.entity}
    return sorted(number_of(past.group, entity) for entity in entities)


def joined_outside(group, links, side, start):
    """The devices that walks of these links outside a side join to a device."""
    if start in side:
        return []
    found = {start}
    while True:
        more = set()
        for number in links:
            ends = {group.links[number].first, group.links[number].second}
            if ends & found:
                more |= ends - set(side)
        if more <= found:
            return sorted(found)
        found |= more


def cut(past, broken, rows):
    """What stands about the cut of a broken promise while these rows' entities change."""
    group = past.group
    changes = {entity for entity in past.entities if past.target[entity] != with_rows(past, rows)[entity]}
    up = up_links(group, past.sure() - changes)
    far = joined_outside(group, up, broken.side, group.promises[broken.promise].second)
    part = "far" if len(far) < len(broken.side) else "side"

    def crosses(link, side):
        return (link.first in side) != (link.second in side)

    chosen = far if part == "far" else broken.side
    out = [number for number, link in enumerate(group.links) if number not in up and crosses(link, chosen)]
    ends = {end for number in out for end in (group.links[number].first, group.links[number].second)}
    gone = [entity for entity in past.entities if entity not in past.sure()
            and (entity.number in out if entity.is_link else entity.number in ends)]
    return {
        "far": far, "part": part,
        "left": [number for number, link in enumerate(group.links) if number in up and crosses(link, broken.side)],
        "out": out, "changes": sorted(number_of(group, entity) for entity in changes),
        "gone": sorted(number_of(group, entity) for entity in gone),
    }


def with_rows(past, rows):
    target = {entity: list(values) for entity, values in past.target.items()}
    for row in rows:
        target[row.entity][row.variable] = row.value
    return {entity: tuple(values) for entity, values in target.items()}


def refused(past, verdict):
    group = past.group
    if isinstance(verdict, LacksLevel):
        return {"kind": "level", "of": number_of(group, verdict.entity), "has": verdict.has, "needs": verdict.needs}
    if isinstance(verdict, LacksPower):
        return {"kind": "off", "of": number_of(group, verdict.row.entity)}
    if isinstance(verdict, IsLocked):
        return {"kind": "locked", "of": number_of(group, verdict.entity), "by": verdict.holder, "prio": verdict.priority}
    broken = verdict.broken
    found = {"kind": "cutoff" if broken.is_cut_off else "short", "promise": broken.promise, "need": broken.need,
             "has": broken.has, "side": list(broken.side)}
    found.update(cut(past, broken, past.pending[0][1]))
    return found


def held(past, up):
    return [past.book.holds(number, up) for number in range(len(past.group.promises))]


def snapshot(past):
    return {
        "states": [state(past, entity) for entity in past.entities], "network": held(past, past.actual()),
        "sure": held(past, past.sure()), "version": past.version(), "pending": len(past.pending),
    }


def turned(before, after):
    lost = [i for i, (b, a) in enumerate(zip(before, after)) if b and not a]
    back = [i for i, (b, a) in enumerate(zip(before, after)) if a and not b]
    return {key: value for key, value in (("lost", lost), ("back", back)) if value}


def entry_picture(document, past, before, after, entry):
    group, applications = past.group, document.applications
    told = {"line": "%s : %s" % (event_text(group, applications, entry.event), reply_text(group, applications, entry.reply))}
    if about(past, entry):
        told["on"] = about(past, entry)
    if isinstance(entry.event, Check) and isinstance(entry.reply, Decided):
        askers = [number for number, _ in past.numbered(Submit, Queued)]
        told["asked"] = askers[entry.reply.ticket - 1]
        if not isinstance(entry.reply.verdict, Accepted):
            told["refused"] = refused(past, entry.reply.verdict)
    differ = []
    for number, (old, new) in enumerate(zip(before["states"], after["states"])):
        fields = {key: value for key, value in new.items() if value != old[key]}
        if fields:
            differ.append({"entity": number, **fields})
    if differ:
        told["set"] = differ
    for word in ("network", "sure"):
        if turned(before[word], after[word]):
            told[word] = turned(before[word], after[word])
    for word in ("version", "pending"):
        if before[word] != after[word]:
            told[word] = after[word]
    return told


def setters(past, entity, variable):
    """The overlays with a row on a variable, each as its version and its application, the oldest first; what is withdrawn has none."""
    return [(version, application) for version, (application, rows) in enumerate(past.overlays_by, 1)
            if any((row.entity, row.variable) == (entity, variable) for row in rows)]


def causes(past):
    """Who set what is not as at the opening, and which entry failed what has failed; empty where there is nothing of it."""
    moved, failed = [], []
    for entity in past.entities:
        for variable, (value, opening) in enumerate(zip(past.target[entity], past.group.opening_values(entity))):
            if value != opening:
                version, application = setters(past, entity, variable)[-1]
                moved.append({"entity": number_of(past.group, entity), "var": variable, "version": version,
                              **({} if application is None else {"app": application})})
        failures = past.failures(entity)
        if failures and past.health(entity) < GREATEST[entity.is_link]:
            failed.append({"entity": number_of(past.group, entity), "entry": failures[-1][0]})
    return {key: told for key, told in (("set", moved), ("failed", failed)) if told}


def group_picture(document, standing, first):
    group, pasts = standing.group, []
    past = Past(standing, 0, pasts)
    start = held(past, past.actual())
    for length in range(1, len(standing.entries) + 1):
        Past(standing, length, pasts)
    first = min(first, len(standing.entries))
    shown = snapshot(pasts[first])
    kinds = []
    for one in shown["states"]:
        if one not in kinds:
            kinds.append(one)
    opening = {
        "states": kinds, "of": [kinds.index(one) for one in shown["states"]], "version": shown["version"], "pending": shown["pending"],
        "network": {"lost": [i for i, holds in enumerate(shown["network"]) if not holds]},
        "sure": {"lost": [i for i, holds in enumerate(shown["sure"]) if not holds]},
    }
    if causes(pasts[first]):
        opening["causes"] = causes(pasts[first])
    entries = []
    for length in range(first, len(standing.entries)):
        after = snapshot(pasts[length + 1])
        entries.append(entry_picture(document, pasts[length], shown, after, standing.entries[length]))
        shown = after
    return {
        "name": group.name,
        "devices": [{"name": device.name, **({"tor": 1} if device.is_tor else {})} for device in group.devices],
        "links": [{"name": link.name, "ends": [link.first, link.second], "capacity": link.capacity} for link in group.links],
        "promises": [
            {"ends": [promise.first, promise.second], "percent": promise.percentage, "need": standing.book.needs[number],
             "start": int(start[number])} for number, promise in enumerate(group.promises)],
        "first": first, "total": len(standing.entries), "opening": opening, "entries": entries,
    }


def picture(reading, first):
    document = reading.document
    return {
        "statesman": 1, "apps": [application.name for application in document.applications],
        "groups": [group_picture(document, standing, first) for standing in reading.run.standings],
    }


def replay_text(text, reading):
    """The document, and the journals of its run behind it."""
    lines = [text if text.endswith("\n") else text + "\n"]
    for standing in reading.run.standings:
        lines.append("journal %s\n" % standing.group.name)
        applications = reading.document.applications
        for number, entry in enumerate(standing.entries, 1):
            lines.append("%d %s : %s\n" % (number, event_text(standing.group, applications, entry.event),
                                           reply_text(standing.group, applications, entry.reply)))
    return "".join(lines)


def cases(first_seed, count):
    """Some documents that can be played, each with its seed."""
    seed = first_seed
    while count:
        text = case_text(seed)
        reading = Reading(text)
        if reading.run and reading.run.full_group is None and all(len(s.entries) <= FEW_ENTRIES for s in reading.run.standings):
            yield seed, text.decode("latin-1"), reading
            count -= 1
        seed += 1


def data_in(page):
    """The picture in a page."""
    return json.loads(re.search(r'<script type="application/json" id="run">(.*?)</script>', page, re.S).group(1))


def main():
    options = argparse.ArgumentParser(description=__doc__, formatter_class=argparse.RawDescriptionHelpFormatter)
    options.add_argument("--cases", type=int, default=100, help="how many documents")
    options.add_argument("--first", type=int, default=1, help="the first seed")
    options.add_argument("--write", help="a folder for the texts and the pictures")
    options.add_argument("--program", help="the player")
    asked = options.parse_args()
    differences = 0
    for seed, text, reading in cases(asked.first, asked.cases):
        first = seed * 7 % MOST_BEFORE * (seed % 2)
        wanted, given = picture(reading, first), replay_text(text, reading)
        if asked.write:
            folder = pathlib.Path(asked.write)
            (folder / ("case%d.txt" % seed)).write_text(given)
            (folder / ("case%d.txt.args" % seed)).write_text("--from\n%d\n" % first if first else "")
            (folder / ("case%d.json" % seed)).write_text(json.dumps(wanted))
        if asked.program:
            words = [asked.program] + (["--from", str(first)] if first else [])
            done = subprocess.run(words, input=given, capture_output=True, text=True, check=False)
            if done.returncode or data_in(done.stdout) != wanted:
                differences += 1
                print("seed %d differs" % seed)
    if asked.program:
        print("%d of %d cases differ" % (differences, asked.cases))
    sys.exit(1 if differences else 0)


if __name__ == "__main__":
    main()
