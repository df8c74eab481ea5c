"""`run` of a document: its journals, its report, and the replay of what it printed, each judged by what it is to be carried out."""

from carried_out import wrong_in_journals
from comparisons import Difference, difference_at, program_says
from document import Propose, Read, ReadAt, Settle
from journal import MOST_ENTRIES
from journal_reading import read_replay
from judging_reports import wrong_in_report
from most import most
from printing import replay_form
from reading import Fault
from replaying import Replay
from report import OK, full_text, group_lines, serial_json, serial_replay, serial_text
from report_reading import Unreadable, read_report, text_of_json
from trying_replays import replay_difference

TEXT, JSON, REPLAY = ("run",), ("run", "--form", "json"), ("run", "--form=replay")
SERIAL = {TEXT: serial_text, JSON: serial_json, REPLAY: serial_replay}


def run_difference(program, text, reading, seed, count=None):
    """The first ending of `run` that is none that a run of the document may have, or None."""
    for words, serial in SERIAL.items():
        if is_order_free(reading):
            found = difference_of_free_run(program, words, text, reading, seed, count)
        else:
            found = difference_at(program, words, text, reading.of_document(lambda _, run, serial=serial: serial(run)))
        if found is not None:
            return found
    return None


def difference_of_free_run(program, words, text, reading, seed, count):
    """Judges one run; where its journals are printed, these are replayed too."""
    got = program_says(program, words, text)
    if got[0] != OK:
        return None if is_full(reading, got) else Difference(words, (OK, "or a full group\n"), got)
    journals = None
    try:
        if words == REPLAY:
            wrong, journals = wrong_in_replay_form(reading, got[1])
        else:
            wrong = wrong_in_report_text(reading, got[1] if words == TEXT else text_of_json(got[1]))
    except (Unreadable, Fault, ValueError) as other:
        wrong = [repr(other)]
    if wrong:
        return Difference(words, (OK, "".join("wrong: %s\n" % (each,) for each in wrong)), got)
    if journals is None:
        return None
    if count is not None:
        count_orders(count, reading, journals)
    return replay_difference(program, reading.document, journals, seed, count)


def is_full(reading, got):
    """The first group of the document that could be full is named."""
    groups = [group for number, group in enumerate(reading.document.groups) if most(reading.document, number) >= MOST_ENTRIES]
    return got in [full_text(group) for group in groups]


def wrong_in_replay_form(reading, text):
    """What is wrong with a run that is printed as a document with journals; and the journals."""
    document = reading.document
    printed, journals = read_replay(text.encode())
    if len(printed.groups) != len(document.groups) or text != replay_form(document, journals):
        return ["another document is printed, or not as it is to be printed"], None
    illegal = Replay(document, journals).illegal
    if illegal is not None:
        return ["entry %d of group %d is illegal" % (illegal[1], illegal[0] + 1)], None
    wrong = wrong_in_journals(document, journals)
    for number, entries in enumerate(journals):
        if len(entries) > most(document, number):
            wrong.append("group %d has %d entries, most is %d" % (number + 1, len(entries), most(document, number)))
        if has_one_order(reading, number) and entries != reading.run.standings[number].entries:
            wrong.append("group %d, on which one application works, has not the journal of the script order" % (number + 1))
    return wrong, journals


def wrong_in_report_text(reading, text):
    """What is wrong with a run that is printed as a report."""
    document = reading.document
    reports, logs = read_report(document, text)
    wrong = wrong_in_report(document, reports, logs)
    for number, standing in enumerate(reading.run.standings):
        if has_one_order(reading, number):
            lines = list(group_lines(document, standing))
            place = text.find("\ngroup %s\n" % standing.group.name)
            if not text[place + 1:].startswith("".join(line + "\n" for line in lines)):
                wrong.append("group %d, on which one application works, has not the report of the script order" % (number + 1))
    return wrong


def is_order_free(reading):
    """Whether it is a document in which several applications have commands, or workers beside them something to do."""
    if reading.document is None:
        return False
    at_work = [application for application in reading.document.applications if application.commands]
    return len(at_work) > 1 or any(isinstance(command, (Propose, Settle)) for application in at_work for command in application.commands)


def has_one_order(reading, number):
    """At most one application has commands on the group that enter something, and no checker, updater or monitor works for it, so the order of
    others tells nothing of its journal."""
    on_it = [[command for command in application.commands if command.group == number and not isinstance(command, (Read, ReadAt))]
             for application in reading.document.applications]
    has_workers = any(isinstance(command, (Propose, Settle)) for commands in on_it for command in commands)
    return sum(map(bool, on_it)) <= 1 and not has_workers and reading.run.full_group is None


def count_orders(count, reading, journals):
    """Counts the entries that were judged, and whether the order that came is the script order."""
    same = all(entries == standing.entries for entries, standing in zip(journals, reading.run.standings))
    count["run with the journals of the script order" if same else "run with other journals"] += 1
    count["run: entries"] += sum(map(len, journals))
