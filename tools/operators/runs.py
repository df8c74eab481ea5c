"""The entries of a printed run: the journals that stand behind a document, with the numbers of their lines."""

from typing import NamedTuple

from operators.asking import BadInput, shown
from operators.documents import read_document
from operators.texts import worded_lines


class Entry(NamedTuple):
    line: int
    number: int
    event: list
    reply: list


def journals_of(path, data):
    """The entries of each group of a printed run, which the program took; a group without a journal has none."""
    journals = {name: [] for name in read_document(data).groups}
    if all(words[0] != "journal" for _, words in worded_lines(data)):
        raise BadInput("%s: has no journal: `./statesman serial --form replay` prints a run of a document" % shown(path))
    entries = None
    for line, words in worded_lines(data):
        if words[0] == "journal":
            entries = journals[words[1]]
        elif entries is not None:
            colon = words.index(":")
            entries.append(Entry(line, int(words[0]), words[1:colon], words[colon + 1:]))
    return journals


# In which place of an event's words the entity stands that it is about.
ENTITY_PLACES = {"send": 1, "withdraw": 1, "finish": 1, "report": 1, "fail": 1, "lock": 2, "unlock": 2}


class Messages:
    """Which proposal a ticket, and which entity a command or a report is of, as the entries so far tell it."""

    def __init__(self):
        self.proposals, self.commands, self.reports = {}, {}, {}

    def take(self, entry):
        numbered = {("submit", "queued"): self.proposals, ("send", "sent"): self.commands, ("report", "reported"): self.reports}
        kept = numbered.get((entry.event[0], entry.reply[0]))
        if kept is not None:
            kept[entry.reply[1]] = entry.event

    def entity_of(self, entry):
        """The entity that the entry is about, or nothing where it is about none, or about several."""
        word = entry.event[0]
        if word in ("deliver", "hear"):
            message = (self.commands if word == "deliver" else self.reports).get(entry.event[1])
            return message[1] if message else ""
        return entry.event[ENTITY_PLACES[word]] if word in ENTITY_PLACES else ""


def holders_after(entries):
    """Who holds which lock behind these entries, by entity and priority: who was granted it and has not given it back."""
    holders = {}
    for entry in entries:
        if (entry.event[0], entry.reply[0]) == ("lock", "granted"):
            holders[entry.event[2], entry.event[3]] = entry.event[1]
        elif (entry.event[0], entry.reply[0]) == ("unlock", "released"):
            holders.pop((entry.event[2], entry.event[3]), None)
    return holders
