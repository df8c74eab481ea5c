"""What is compared: for each command of the program, the text and the exit status that the second reading calls for.

What has one right ending is a row of `ENDINGS`. What threads make of a document has many, and is judged (`trying_runs.py`);
journals are altered first (`trying_replays.py`).
"""

import subprocess
from typing import NamedTuple

from journal_reading import read_replay
from planning import roll_text
from reading import MOST_BYTES, Fault, read_document
from replaying import Replay
from report import (
    OK, TOO_LONG_TEXT, USAGE_TEXT, check_text, fault_text, illegal_text, report_json, report_lines, serial_json, serial_replay,
    serial_text, text_of_lines,
)
from reverting import revert_text
from printing import replay_form
from scripts import ScriptRun
from words import job_of

SECONDS_OF_A_RUN = 300


class Reading:
    """The second reading of a text: its document and its run, or its fault, or that it is too long to be read."""

    def __init__(self, text):
        self.text = text
        self.document, self.run, self.fault = None, None, None
        self.is_too_long = len(text) > MOST_BYTES
        if self.is_too_long:
            return
        try:
            self.document = read_document(text)
        except Fault as fault:
            self.fault = fault
        else:
            self.run = ScriptRun(self.document)

    def of_document(self, text_of):
        """What `text_of` makes of a document and its run, or why there are none."""
        if self.is_too_long:
            return TOO_LONG_TEXT
        if self.fault is not None:
            return fault_text(self.fault)
        return text_of(self.document, self.run)


def replay_wanted(text, form):
    """What `replay` makes of a text in a form."""
    if len(text) > MOST_BYTES:
        return TOO_LONG_TEXT
    try:
        document, journals = read_replay(text)
    except Fault as fault:
        return fault_text(fault)
    replay = Replay(document, journals)
    if replay.illegal is not None:
        group, number = replay.illegal
        return illegal_text(document.groups[group], number)
    if form == "replay":
        return OK, replay_form(document, journals)
    lines = report_lines(document, replay.standings, ())
    return OK, report_json(lines) if form == "json" else text_of_lines(lines)


# Of each command that reads something and has one right ending, what it should end with, by its options.
ENDINGS = {
    "serial": lambda reading, options: reading.of_document(lambda _, run: SERIAL_FORMS[options["form"]](run)),
    "check": lambda reading, _: reading.of_document(lambda document, _: check_text(document)),
    "replay": lambda reading, options: replay_wanted(reading.text, options["form"]),
    "roll": lambda reading, options: reading.of_document(lambda _, run: roll_text(run, options["to"])),
    "revert": lambda reading, options: reading.of_document(lambda _, run: revert_text(run, options["to"])),
}

SERIAL_FORMS = {"text": serial_text, "json": serial_json, "replay": serial_replay}

# The words with which each text is compared, beside those with a number, which are made for it (`asking.py`).
COMPARISONS = (("serial",), ("serial", "--form=json"), ("serial", "--form", "replay"), ("check",), ("replay",))


def has_one_ending(words):
    """Whether `wanted_of_words` has the ending of a call of these words."""
    job = job_of(words)
    return job is None or job.command in ENDINGS


def wanted_of_words(words, reading):
    """The status and the text of a call of any words that have one right ending, and that read something."""
    job = job_of(words)
    return USAGE_TEXT if job is None else ENDINGS[job.command](reading, job.options)


class Difference(NamedTuple):
    """What the program ended with, and with what it should have; `text` is what it read, where that is no document of a case."""

    words: tuple
    wanted: tuple
    got: tuple
    text: bytes = None


def program_says(program, words, text):
    """The program's exit status and its output, behind which stands what it wrote to standard error, which should be nothing.

    The status is None where it came to no end.
    """
    try:
        done = subprocess.run([program, *words], input=text, stdout=subprocess.PIPE, stderr=subprocess.PIPE,
                              timeout=SECONDS_OF_A_RUN, check=False)
    except subprocess.TimeoutExpired:
        return None, ""
    return done.returncode, (done.stdout + done.stderr).decode("latin-1")


def difference_at(program, words, text, wanted):
    """What the program says of a text where it is not what is wanted, or None."""
    got = program_says(program, words, text)
    return None if got == wanted else Difference(words, wanted, got)


def difference(program, text, reading=None):
    """The first command whose ending is not the one that the second reading calls for, or None."""
    reading = reading or Reading(text)
    for words in COMPARISONS:
        found = difference_at(program, words, text, wanted_of_words(words, reading))
        if found is not None:
            return found
    return None
