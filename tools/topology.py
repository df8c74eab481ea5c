#!/usr/bin/env python3
"""Makes a document of a topology, and a drawing of a document or a printed run.

  topology.py read FILE   a topology of containerlab (.yml, .yaml), of Graphviz (.dot, .gv) or an edge list (.csv): to a document
  topology.py draw FILE   a document, or a printed run as an entry leaves it: to Graphviz's DOT

Each has --help. Names that no document may have get another one, told in a comment above their line; what a document has no place for is
told on standard error. The program reads what is made, so that its faults are told with the line of the topology.
"""

import argparse
import csv
import os
import sys

sys.dont_write_bytecode = True

from operators.asking import BAD_LINE, OK, BadInput, add_program, ask, read_file, run_tool, shown  # noqa: E402
from operators.building import built  # noqa: E402
from operators.containerlab import read_containerlab  # noqa: E402
from operators.csv_edges import read_csv  # noqa: E402
from operators.dot_language import read_dot  # noqa: E402
from operators.drawing import drawings  # noqa: E402
from operators.faults import fault_words  # noqa: E402
from operators.graphs import Source  # noqa: E402
from operators.texts import many  # noqa: E402

FORMS = {"containerlab": read_containerlab, "dot": read_dot, "csv": read_csv}
ENDINGS = {".yml": "containerlab", ".yaml": "containerlab", ".dot": "dot", ".gv": "dot", ".csv": "csv"}


def main():
    options = read_options()
    return options.work(options)


def read_options():
    parser = argparse.ArgumentParser(prog="topology", description=__doc__, formatter_class=argparse.RawDescriptionHelpFormatter)
    works = parser.add_subparsers(metavar="read|draw", required=True)
    add_read(works.add_parser("read", help="a topology to a document"))
    add_draw(works.add_parser("draw", help="a document or a printed run to DOT"))
    return parser.parse_args()


def add_read(parser):
    parser.set_defaults(work=read_topology)
    parser.add_argument("file", metavar="FILE", help="a topology, or - for standard input")
    parser.add_argument("--form", choices=FORMS, help="its form, where the name of the file does not tell it")
    parser.add_argument("--group", metavar="NAME", help="the name of the group (that of the topology, else dc1)")
    parser.add_argument("--tor", metavar="GLOB", action="append", default=[], help="nodes that are ToRs, as 'leaf*'; without it those whose role is tor")
    parser.add_argument("--without", metavar="GLOB", action="append", default=[], help="nodes that are left out with their links, as 'client*'")
    parser.add_argument("--capacity", metavar="N", default="10", help="of links that have none of their own (10)")
    parser.add_argument("--promise", metavar="PERCENT", type=int, help="a promise of so much between each two ToRs")
    parser.add_argument("--names", metavar="FILE", help="write there which name stands for what, as CSV")
    add_program(parser)


def add_draw(parser):
    parser.set_defaults(work=draw)
    parser.add_argument("file", metavar="FILE", help="a document or a printed run, or - for standard input")
    parser.add_argument("--group", metavar="NAME", help="this group alone")
    parser.add_argument("--entry", metavar="N", type=int, help="of a printed run, as entry N leaves the group; 0 is its opening (the last entry)")
    add_program(parser)


def read_topology(options):
    source = Source(options.file, read_file(options.file))
    graphs = FORMS[form_of(options)](source)
    if options.group and len(graphs) > 1:
        raise BadInput("%s: --group names one group, and there are %d graphs" % (shown(options.file), len(graphs)))
    made = built(source, graphs, options)
    check_made(options, source, made)
    if options.names:
        write_names(options.names, made.names)
    print("statesman 1")
    for text, _ in made.lines:
        print(text)
    sys.stdout.flush()
    for what, lines in made.left_out.items():
        print("%s: left out: %s, %s, first on line %d" % (shown(options.file), what, many(len(lines), "time"), lines[0]), file=sys.stderr)
    return 0


def form_of(options):
    ending = os.path.splitext(options.file)[1].lower()
    form = options.form or ENDINGS.get(ending)
    if form is None:
        raise BadInput("%s: name its form: --form containerlab, dot or csv" % shown(options.file))
    return form


def check_made(options, source, made):
    """The program reads the document; its fault is told of the line of the topology."""
    data = "".join(text + "\n" for text in ["statesman 1", *[text for text, _ in made.lines]]).encode("ascii")
    answer = ask(options.program, ["check"], data)
    if answer.status == OK:
        return
    line, what = fault_words(data, answer.text)
    if answer.status == BAD_LINE and line is not None:
        text, place = made.lines[line - 2]
        source.refuse(place, "makes the line '%s', whose fault is %s" % (text, what))
    raise BadInput("%s: makes a document that is not taken: %s" % (shown(options.file), what))


def write_names(path, names):
    try:
        with open(path, "w", encoding="utf-8", newline="") as file:
            csv.writer(file, lineterminator="\n").writerows([("kind", "group", "name", "stands for"), *names])
    except OSError as error:
        raise BadInput("%s: %s" % (path, error.strerror)) from None


def draw(options):
    for line in list(drawings(options, read_file(options.file))):
        print(line)
    return 0


if __name__ == "__main__":
    sys.exit(run_tool(main))
