#!/usr/bin/env python3
"""Adds an application to a document, to be timed: `python3 tools/propose_each.py TIMES <document >input`.

It makes TIMES proposals, each of which gives another switch of the document's first group a new firmware, in turn and from the first again
after the last; each is decided and settled before the next. Where the document can't be extended so, nothing is written, why is told on
standard error, and the status is 2. No program is asked.
"""

import argparse
import sys

sys.dont_write_bytecode = True

from operators.asking import BadInput, read_file, run_tool  # noqa: E402
from operators.texts import lines_of, worded_lines  # noqa: E402

# An application has 1,024 commands, and a proposal takes three of them; a document has 32 applications.
MOST_TIMES, MOST_APPLICATIONS = 341, 32


def main():
    options = read_options()
    if not 1 <= options.times <= MOST_TIMES:
        raise BadInput("%d proposals: an application has room for 1 to %d, of three commands each" % (options.times, MOST_TIMES))
    data = read_file("-")
    for line in [*lines_of(data), *application(options, *room_in(options, data))]:
        print(line)
    return 0


def read_options():
    parser = argparse.ArgumentParser(prog="propose_each", description=__doc__, formatter_class=argparse.RawDescriptionHelpFormatter)
    parser.add_argument("times", metavar="TIMES", type=int, help="how many proposals, 1 to %d" % MOST_TIMES)
    parser.add_argument("--app", metavar="NAME", default="up", help="the name of the application (up)")
    return parser.parse_args()


def room_in(options, data):
    """The document's first group, and its switches, where one application more can stand behind it."""
    groups, applications, switches = [], 0, []
    for line, words in worded_lines(data):
        if words[0] in ("order", "journal"):
            refuse(line, "behind '%s' no application can begin" % words[0])
        if words == ["app", options.app]:
            refuse(line, "the document has the application '%s' already: name another by --app" % options.app)
        applications += words[0] == "app"
        groups += words[1:2] if words[0] == "group" else []
        if words[0] == "device" and words[2:] == ["switch"] and len(groups) == 1:
            switches.append(words[1])
    if applications == MOST_APPLICATIONS:
        raise BadInput("standard input: has %d applications, and no room for one more" % applications)
    if not switches:
        raise BadInput("standard input: its first group has no switch" if groups else "standard input: has no group")
    return groups[0], switches


def refuse(line, what):
    raise BadInput("standard input:%d: %s" % (line, what))


def application(options, group, switches):
    yield "app " + options.app
    for time in range(options.times):
        yield "propose %s %s.firmware=%d" % (group, switches[time % len(switches)], time + 2)
        yield "await " + group
        yield "settle %s 1" % group


if __name__ == "__main__":
    sys.exit(run_tool(main))
