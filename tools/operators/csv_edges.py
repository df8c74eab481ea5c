"""Reads an edge list in CSV: a line for each link, with its two ends, and where they are known its capacity and its name.

The first line may be a header, whose first two fields are `source` and `target`; `capacity`, `name` and other fields follow in any order.
Without a header the fields are source, target, capacity and name. Lines that are empty or begin with `#` are skipped.
"""

import csv

from operators.graphs import Edge, Graph
from operators.texts import many

FIELDS = ("source", "target", "capacity", "name")


def read_csv(source):
    """The one graph of an edge list."""
    graph, fields, has_header = Graph(None), FIELDS, False
    for line, row in rows_of(source):
        if not graph.edges and not has_header and [cell.lower() for cell in row[:2]] == list(FIELDS[:2]):
            fields, has_header = header_of(source, line, row), True
            continue
        if len(row) > len(fields) or len(row) < 2:
            source.refuse(line, "%s, where 2 to %d may be: %s" % (many(len(row), "field"), len(fields), ", ".join(fields)))
        values = dict(zip(fields, row))
        ends = values.pop("source"), values.pop("target")
        for end, field in zip(ends, FIELDS):
            if end == "":
                source.refuse(line, "the field '%s' is empty" % field)
            graph.node(end, line)
        edge = Edge(ends, line)
        edge.attributes = {key: value for key, value in values.items() if value != ""}
        graph.edges.append(edge)
    return [graph]


def rows_of(source):
    """Each line's number with its fields, without the space around them. A field does not go over several lines."""
    for number, line in enumerate(source.lines, 1):
        if line.strip() == "" or line.lstrip().startswith("#"):
            continue
        try:
            rows = list(csv.reader([line], strict=True, skipinitialspace=True))
        except csv.Error as error:
            source.refuse(number, "no line of CSV: %s" % error)
        yield number, [cell.strip() for cell in rows[0]]


def header_of(source, line, row):
    fields = [cell.lower() for cell in row]
    again = [field for at, field in enumerate(fields) if field in fields[:at]]
    if again or "" in fields:
        source.refuse(line, "the header has '%s' twice" % again[0] if again else "the header has a field without a name")
    return fields
