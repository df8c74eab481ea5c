"""Compares the program with a second reading of the documents: `python3 tools/second_reading --cases 2000`.

Case S is made from the seed S alone: every third has one line broken. `serial`, `check`, `replay`, `roll` and `revert` have one right
ending; for the last two each fifth case has a wide document too. What `run` makes of a document is judged, and replayed as it is and
altered. The command `words` tries words that are mostly bad. The exit status is 0 where all agree, 1 where a case differs, 2 where
nothing could be tried. `--show S` prints a case with what the second reading makes of it, and runs nothing.
"""

import argparse
import difflib
import multiprocessing
import os
import subprocess
import sys
import time
from collections import Counter

sys.dont_write_bytecode = True

from asking import difference_of_words, words_for  # noqa: E402
from cases import case_text, crowd_text, has_wide, wide_text  # noqa: E402
from comparisons import COMPARISONS, Reading, difference, difference_at, wanted_of_words  # noqa: E402
from edges import NETWORK, edge_documents, text_of  # noqa: E402
from generated import generated_rows  # noqa: E402
from journal import Decided, entry_line  # noqa: E402
from looking_back import first_difference  # noqa: E402
from plan_edges import WORD_EDGES, large_plan_edges, plan_edges  # noqa: E402
from smaller import smaller  # noqa: E402
from trying_replays import replay_difference  # noqa: E402
from trying_runs import is_order_free, run_difference  # noqa: E402
from words import job_of  # noqa: E402

# A text with more bytes is not printed.
MOST_SHOWN = 20000

REPOSITORY = os.path.dirname(os.path.dirname(os.path.dirname(os.path.abspath(__file__))))
PROGRAM_PATH = os.path.join(REPOSITORY, "tools", "program_path.sh")


def main():
    options = read_options()
    if options.show is not None:
        show(case_text(options.show), "seed %d" % options.show)
        return 0
    if options.program is None:
        options.program = subprocess.run([PROGRAM_PATH, "statesman_cli"], stdout=subprocess.PIPE, check=True).stdout.decode().strip()
    if not os.access(options.program, os.X_OK):
        print("no program at %s" % options.program)
        return 2
    trial = Trial(options)
    for share in in_shares(options):
        trial.take(share)
    trial.tell()
    return 1 if trial.differing else 0


def in_shares(options):
    """What each share of the cases came to, each tried by a process of its own."""
    if options.processes < 2:
        return [Trial(options).tried_all()]
    with multiprocessing.get_context("fork").Pool(options.processes) as pool:
        return pool.map(try_share, [(options, share) for share in range(options.processes)], 1)


def try_share(work):
    return Trial(*work).tried_all()


def read_options():
    parser = argparse.ArgumentParser(prog="second_reading", description=__doc__)
    parser.add_argument("--program", help="the program to compare with (the one that ./statesman runs)")
    parser.add_argument("--cases", type=int, default=2000, help="how many cases (2000)")
    parser.add_argument("--crowds", type=int, default=0, help="how many documents with many applications, for run alone (0)")
    parser.add_argument("--again", type=int, default=1, metavar="N", help="try run N times on each document whose order is free (1)")
    parser.add_argument("--first", type=int, default=1, help="the seed of the first case (1)")
    parser.add_argument("--seconds", type=float, default=60, help="after so many seconds no new case begins (60)")
    parser.add_argument("--processes", type=int, default=os.cpu_count() or 1, metavar="N",
                        help="try N cases at a time (as many as there are processors)")
    parser.add_argument("--edges", action="store_true", help="also the documents at limits, words at limits, and gen and demo")
    parser.add_argument("--commands", default=",".join(TRIES), help="which commands, of %s (all)" % ",".join(TRIES))
    parser.add_argument("--look-back", type=int, default=0, metavar="N",
                        help="of each N-th case also look back over the journals, as the definitions do")
    parser.add_argument("--differences", type=int, default=5, help="stop after so many differing cases (5)")
    parser.add_argument("--show", type=int, metavar="SEED", help="print a case, its journals and its report")
    parser.add_argument("documents", nargs="*", help="compare these files in the place of cases by chance")
    return parser.parse_args()


def show(text, name):
    """Prints a text of a name with what the second reading makes of it."""
    print(text.decode("latin-1"))
    reading = Reading(text)
    if reading.run is not None:
        for standing in reading.run.standings:
            print("journal of %s" % standing.group.name)
            for number, entry in enumerate(standing.entries, 1):
                print(entry_line(reading.document, standing.group, number, entry))
    for words in (*COMPARISONS, *(words_for(command, name, reading) for command in ("roll", "revert"))):
        print("%s: status %d\n%s" % ((" ".join(words),) + wanted_of_words(words, reading)))


def try_serial(program, text, reading, _, __):
    return difference(program, text, reading)


def try_replay(program, _, reading, seed, count):
    """The journals of the script order, as they are and altered."""
    if reading.run is None or reading.run.full_group is not None:
        return None
    return replay_difference(program, reading.document, [standing.entries for standing in reading.run.standings], seed, count)


def try_words(command):
    return lambda program, text, reading, name, count: difference_of_words(program, words_for(command, name, reading), text, reading, count)


WIDE_TRIES = ["roll", "revert"]
BY_WORDS = WIDE_TRIES + ["words"]
TRIES = {"serial": try_serial, "replay": try_replay, "run": run_difference, **{command: try_words(command) for command in BY_WORDS}}


class Trial:
    """The cases that were tried, and what they met. Of several shares each has every so manyth seed, and the first all that has none."""

    def __init__(self, options, share=0):
        self.options = options
        self.commands = options.commands.split(",")
        self.share = share
        self.begin = time.monotonic()
        self.met = Counter()
        self.tried, self.entries, self.differing = 0, 0, 0
        self.last, self.last_crowd = None, None

    def tried_all(self):
        """Tries all cases of the share, and gives what they came to."""
        try:
            self.try_all()
        except KeyboardInterrupt:
            print("interrupted")
        return self.met, self.tried, self.entries, self.differing, self.last, self.last_crowd

    def take(self, share):
        """Adds what a share came to."""
        met, tried, entries, differing, last, last_crowd = share
        self.met.update(met)
        self.tried, self.entries, self.differing = self.tried + tried, self.entries + entries, self.differing + differing
        self.last, self.last_crowd = later(self.last, last), later(self.last_crowd, last_crowd)

    def seeds(self, count):
        """The seeds of the share among so many."""
        return range(self.options.first + self.share, self.options.first + count, self.options.processes)

    def try_all(self):
        if self.share == 0:
            self.try_what_has_no_seed()
        for seed in self.seeds(0 if self.options.documents else self.options.cases):
            if self.is_over():
                break
            looks_back = self.options.look_back and seed % self.options.look_back == 0
            self.try_one("seed %d" % seed, case_text(seed), looks_back)
            wide_commands = [command for command in WIDE_TRIES if command in self.commands]
            if wide_commands and has_wide(seed):
                self.try_one("wide %d" % seed, wide_text(seed), False, wide_commands)
            self.last = seed
        for seed in self.seeds(self.options.crowds):
            if self.is_over():
                break
            self.try_one("crowd %d" % seed, crowd_text(seed), False, ["run"])
            self.last_crowd = seed

    def try_what_has_no_seed(self):
        for path in self.options.documents:
            with open(path, "rb") as file:
                self.try_one(path, file.read(), self.options.look_back)
        if self.options.edges:
            for name, text in edge_documents():
                self.try_one("edge %r" % name, text, False)
            for words, wanted in generated_rows():
                self.met[words[0]] += 1
                self.tell_words("", words, difference_at(self.options.program, words, b"", wanted))
            self.try_plan_edges()

    def try_plan_edges(self):
        """Words on texts that are made for them."""
        for name, text, lists in (*plan_edges(), *large_plan_edges(), ("words", text_of(*NETWORK), WORD_EDGES)):
            reading = Reading(text)
            for words in lists:
                job = job_of(words)
                if ("words" if job is None else job.command) in self.commands:
                    self.tell_words("edge %r: " % name, words, difference_of_words(self.options.program, words, text, reading, self.met))

    def tell_words(self, name, words, found):
        """Counts words that were tried, and tells where they differ."""
        self.tried += 1
        if found is not None:
            self.differing += 1
            print("== %s%s differs" % (name, " ".join(words)))
            self.tell_endings(found)

    def is_over(self):
        return self.differing >= self.options.differences or time.monotonic() - self.begin > self.options.seconds

    def try_one(self, name, text, looks_back, commands=None):
        reading = Reading(text)
        self.tried += 1
        self.count(reading)
        if looks_back and reading.run is not None:
            self.look_back(name, reading)
        for command in self.commands if commands is None else commands:
            is_free = command == "run" and is_order_free(reading)
            for _ in range(self.options.again if is_free else 1):
                found = TRIES[command](self.options.program, text, reading, name, self.met)
                if found is not None:
                    self.differing += 1
                    self.tell_difference(name, text, found, command)
                    break

    def look_back(self, name, reading):
        self.met["looked back over"] += 1
        for standing in reading.run.standings:
            found = first_difference(standing)
            if found is not None:
                self.differing += 1
                print("== %s: the second reading contradicts itself in group %s\n%s" % (name, standing.group.name, found))

    def count(self, reading):
        if reading.is_too_long:
            self.met["too long"] += 1
            return
        if reading.fault is not None:
            self.met["fault " + reading.fault.kind] += 1
            return
        self.met["documents"] += 1
        for standing in reading.run.standings:
            self.entries += len(standing.entries)
            for event, reply in standing.entries:
                self.met["%s %s" % (type(event).__name__, reply_word(reply))] += 1
        for log in reading.run.logs:
            for seen in log:
                self.met["read" if len(seen) == 5 else "readat" if seen.value is not None else "readat none"] += 1

    def tell_difference(self, name, text, found, command):
        print("== %s differs; made small:" % name)

        def tried(rest):
            if command in BY_WORDS:
                return difference_of_words(self.options.program, found.words, rest)
            return TRIES[command](self.options.program, rest, Reading(rest), name, None)

        small = smaller(text, lambda rest: tried(rest) is not None, 30)
        found = tried(small) or found
        print(small.decode("latin-1") if len(small) <= MOST_SHOWN else "%d bytes, not shown" % len(small))
        if found.text is not None:
            print("-- of which the journals are altered:\n%s" % found.text.decode("latin-1")[:MOST_SHOWN])
        self.tell_endings(found)

    def tell_endings(self, found):
        print("-- %s: wanted status %r, the program's %r" % (" ".join(found.words), found.wanted[0], found.got[0]))
        sys.stdout.writelines(difflib.unified_diff(
            found.wanted[1].splitlines(True), found.got[1].splitlines(True), "wanted", "the program's"))
        sys.stdout.flush()

    def tell(self):
        for word in sorted(self.met):
            print("%8d %s" % (self.met[word], word))
        lasts = (("seeds", self.last), ("crowds", self.last_crowd))
        seeds = ", ".join("%s %d to %d" % (word, self.options.first, last) for word, last in lasts if last is not None) or "no seeds"
        print("%d cases (%s), %d entries, %d differing, %.1f seconds" % (
            self.tried, seeds, self.entries, self.differing, time.monotonic() - self.begin))


def later(seed, other):
    """The later of two seeds, as far as there are some."""
    return max((each for each in (seed, other) if each is not None), default=None)


def reply_word(reply):
    if isinstance(reply, Decided):
        return type(reply.verdict).__name__
    return type(reply).__name__


if __name__ == "__main__":
    sys.exit(main())
