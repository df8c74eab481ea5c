#!/usr/bin/env python3
"""Says each entry of a printed run as a sentence: `python3 tools/explain.py run.txt`.

A printed run is what `./statesman serial --form replay` or `run --form replay` prints. The program goes through it first, by `replay`, so
that what is explained is legal. Nothing here is proved; the entries are those of the run.
"""

import argparse
import sys

sys.dont_write_bytecode = True

from operators.asking import BadInput, add_program, answer_of, read_file, run_tool, shown  # noqa: E402
from operators.runs import Messages, journals_of  # noqa: E402
from operators.sentences import sentence  # noqa: E402
from operators.texts import did_you_mean, many  # noqa: E402


def main():
    options = read_options()
    data = read_file(options.run)
    answer_of(options.program, ["replay"], options.run, data)
    journals = journals_of(options.run, data)
    for name in chosen(options, journals):
        print("group %s: %s" % (name, many(len(journals[name]), "entry", "entries")))
        for line in sentences(journals[name], options):
            print(line)
    return 0


def read_options():
    parser = argparse.ArgumentParser(prog="explain", description=__doc__, formatter_class=argparse.RawDescriptionHelpFormatter)
    parser.add_argument("run", metavar="RUN", help="a printed run, or - for standard input")
    parser.add_argument("--group", metavar="NAME", action="append", help="this group alone; it may stand again")
    parser.add_argument("--entry", metavar="N", type=int, help="this entry alone")
    parser.add_argument("--refused", action="store_true", help="the entries alone that refuse a proposal")
    add_program(parser)
    return parser.parse_args()


def chosen(options, journals):
    """The groups that are asked for, each of which has to be there, and to have the entry that is asked for."""
    names = list(dict.fromkeys(options.group or journals))
    for name in names:
        if name not in journals:
            raise BadInput("%s: no group '%s'%s" % (shown(options.run), name, did_you_mean(name, journals)))
        if options.entry is not None and options.group and not 1 <= options.entry <= len(journals[name]):
            raise BadInput("%s: no entry %d: the journal of group %s has %d" % (shown(options.run), options.entry, name, len(journals[name])))
    if options.entry is not None and not any(1 <= options.entry <= len(journals[name]) for name in names):
        raise BadInput("%s: no entry %d in any journal" % (shown(options.run), options.entry))
    return names


def sentences(entries, options):
    """The lines of the entries that are asked for."""
    messages = Messages()
    for entry in entries:
        messages.take(entry)
        if options.entry in (None, entry.number) and (not options.refused or entry.reply[2:3] == ["refused"]):
            yield "%d %s" % (entry.number, sentence(entry, messages))


if __name__ == "__main__":
    sys.exit(run_tool(main))
