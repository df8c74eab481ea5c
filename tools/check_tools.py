"""Checks the tools for operators: `python3 tools/check_tools.py`.

Each file of `tools/operators/cases` has commands with all that they print and their status, which are typed in a folder of their own. A
line of it is

  # ..      a comment
  file NAME the lines behind it that begin with `| ` are that file, with \\t, \\r, \\xNN and \\\\ for bytes
  $ ..      a command, as it is typed at the top of the repository
  > ..      a line of its output
  ! ..      a line of its errors
  = N       its status, behind these

Then each example's report as JSON is compared with docs/report.schema.json and with its report as text, reports that are altered have to be
refused, and what is drawn of each example's network has to be read back as that network. Prints what differs; the status is then 1.
"""

import argparse
import copy
import difflib
import json
import os
import sys

sys.dont_write_bytecode = True

from operators.asking import ask, each_at_once  # noqa: E402
from operators.documents import read_document  # noqa: E402
from operators.reports import read_report, schema  # noqa: E402
from operators.small_schema import faults_of  # noqa: E402
from operators.typed_commands import REPOSITORY, Folder, add_program, is_there  # noqa: E402

CASES = os.path.join(REPOSITORY, "tools", "operators", "cases")
EXAMPLES = os.path.join(REPOSITORY, "examples")


def main():
    options = read_options()
    if not is_there(options.program):
        return 2
    names = sorted(name.removesuffix(".txt") for name in os.listdir(CASES))
    if options.show:
        print("\n".join(came_lines(options.program, options.show)))
        return 0
    found = [line for lines in each_at_once(lambda name: list(differing(options.program, name)), names) for line in lines]
    for check in (reports, altered_reports, drawings):
        found += check(options.program)
    for line in found:
        print(line)
    print("%d differ" % len(found))
    return 1 if found else 0


def read_options():
    parser = argparse.ArgumentParser(prog="check_tools", description=__doc__, formatter_class=argparse.RawDescriptionHelpFormatter)
    parser.add_argument("--show", metavar="NAME", help="print this file of cases with what comes of its commands now, and check nothing")
    add_program(parser)
    return parser.parse_args()


# Commands with what they print.

def case_lines(name):
    with open(os.path.join(CASES, name + ".txt"), encoding="ascii") as file:
        return file.read().split("\n")[:-1]


def differing(program, name):
    """The commands of a file of cases of which something else comes than stands there."""
    stored, came = ("\n".join(lines).split("\n$ ") for lines in (case_lines(name), came_lines(program, name)))
    for block, other in zip(stored, came):
        if block != other:
            told = difflib.unified_diff(block.split("\n"), other.split("\n"), "stored", "came", n=0, lineterm="")
            yield "%s: $ %s\n%s" % (name, block.split("\n")[0], "\n".join(told))


def came_lines(program, name):
    """The lines of a file of cases, with what comes of its commands in the place of what stands there."""
    lines, writing, made = [], None, b""
    with Folder(program) as folder:
        for line in case_lines(name):
            if writing and not line.startswith("|"):
                folder.write(writing, made)
                writing = None
            if line.startswith("file "):
                writing, made = line[len("file "):], b""
            elif writing:
                made += bytes_of(line[2:])
            if not line.startswith((">", "!", "=")):
                lines.append(line)
            if line.startswith("$ "):
                lines += told(folder.run(line[2:]))
    return lines


def bytes_of(line):
    return line.encode("ascii").decode("unicode_escape").encode("latin-1") + b"\n"


def told(came):
    """What came of a command, as lines of a file of cases."""
    output = ["> " + line if line else ">" for line in ascii_lines(came.output)]
    return [*output, *["! " + line for line in ascii_lines(came.errors)], "= %d" % came.status]


def ascii_lines(text):
    return text.encode("ascii", "backslashreplace").decode("ascii").splitlines()


# Reports.

def examples():
    for folder, _, names in sorted(os.walk(EXAMPLES)):
        for name in sorted(names):
            path = os.path.join(folder, name)
            with open(path, "rb") as file:
                yield os.path.relpath(path, EXAMPLES), file.read()


def reports(program):
    """Each example's report as JSON is as the schema says, and the same as its report as text."""
    tries = [(name, data, word) for name, data in examples() for word in ("serial", "replay", "run")]
    return [line for lines in each_at_once(lambda each: report_differences(program, *each), tries) for line in lines]


def report_differences(program, name, data, word):
    answer = ask(program, [word, "--form", "json"], data)
    if answer.status != 0:
        return []
    found = ["%s %s: the schema: %s %s" % (word, name, path, what) for path, what in faults_of(schema(), json.loads(answer.text))]
    if word != "run" and read_report(name, ask(program, [word], data).text) != json.loads(answer.text):
        found.append("%s %s: the report as text is read as another than that as JSON" % (word, name))
    return found


def altered_reports(program):
    """A report of which a part is left out, or is of another type or form, is not as the schema says."""
    with open(os.path.join(EXAMPLES, "every_line.txt"), "rb") as file:
        report = json.loads(ask(program, ["replay", "--form", "json"], file.read()).text)
    report["reads"] = ["te dc1 a1.firmware version 1 value 2", "te dc1 a1.firmware at 1 value 2", "te dc1 a1.firmware at 9 none latest 2"]
    if list(faults_of(schema(), report)):
        return ["the schema refuses a report with reads"]
    return ["the schema takes a report with %s" % what for what, altered in alterations(report) if not list(faults_of(schema(), altered))]


def alterations(report):
    """Copies of a report, each with one thing altered, and what that is."""
    for path in paths_in(report):
        for value in (None, True, -1, 1.5, "", "a  b", [None], {}):
            if type(value) is not type(part_of(report, path)) or value not in ([], {}):
                yield "%r at %s" % (value, path), with_part(report, path, value)
        if path and isinstance(path[-1], str):
            yield "no %s" % (path,), without_part(report, path)
    yield "one key more", {**report, "more": 1}
    yield "17 groups", {**report, "groups": report["groups"][:1] * 17}


def paths_in(value, path=()):
    yield path
    for key, part in value.items() if isinstance(value, dict) else enumerate(value) if isinstance(value, list) else ():
        yield from paths_in(part, (*path, key))


def part_of(value, path):
    for key in path:
        value = value[key]
    return value


def with_part(report, path, value):
    if not path:
        return value
    altered = copy.deepcopy(report)
    part_of(altered, path[:-1])[path[-1]] = value
    return altered


def without_part(report, path):
    altered = copy.deepcopy(report)
    del part_of(altered, path[:-1])[path[-1]]
    return altered


# Drawings.

def drawings(program):
    """What is drawn of an example's network is read back as that network, but for promises, opening values and health. Where there is no group,
    nothing is drawn."""
    with Folder(program) as folder:
        found = each_at_once(lambda each: drawing_difference(program, folder, *each), list(examples()))
    return [line for line in found if line]


def drawing_difference(program, folder, name, data):
    if ask(program, ["check"], data).status != 0 or not parts_of(data):
        return None
    drawn = name.replace(os.sep, "-") + ".dot"
    came = folder.run("python3 tools/topology.py draw examples/%s >%s && python3 tools/topology.py read %s" % (name, drawn, drawn))
    if came.status != 0 or parts_of(came.output.encode()) != parts_of(data):
        return "%s: what is drawn is not read back: %s" % (name, came.errors)
    return None


def parts_of(data):
    return [(group.name, group.devices, group.links) for group in read_document(data).groups.values()]


if __name__ == "__main__":
    sys.exit(main())
