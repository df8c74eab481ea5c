"""Reads a topology of containerlab: its `nodes`, and its `links` with two `endpoints` each, `node:interface`.

A node's `labels` may have `role` (tor or switch), a link's `vars` `capacity` and `name`. All else of nodes and links is kept as
attributes, so that it can be told what is left out."""

from operators.graphs import Edge, Graph
from operators.simple_yaml import read_yaml

WHAT = {dict: "a mapping", list: "a list", str: "a text"}


def read_containerlab(source):
    """The one graph of a topology."""
    whole = mapping(source, read_yaml(source), "the file")
    name = whole.pop("name", None)
    if "topology" not in whole:
        source.refuse(1, "no 'topology', so this is no file of containerlab")
    topology = mapping(source, whole.pop("topology"), "'topology'")
    graph = Graph(text(source, name, "'name'") if name else None)
    nodes, links = topology.pop("nodes", None), topology.pop("links", None)
    for key, value in {**whole, **topology}.items():
        graph.attributes[key] = value.line
    for node_name, value in (mapping(source, nodes, "'nodes'") if nodes else {}).items():
        take_node(source, graph, node_name, value)
    for value in sequence(source, links, "'links'") if links and links.value is not None else []:
        take_link(source, graph, value)
    return [graph]


def take_node(source, graph, name, value):
    node = graph.node(name, value.line)
    attributes = mapping(source, value, "node '%s'" % name)
    if "labels" in attributes:
        labels = mapping(source, attributes.pop("labels"), "'labels'")
        take_attributes(source, node, labels, ("role",), "labels.")
    take_attributes(source, node, attributes, (), "")


def take_link(source, graph, value):
    attributes = mapping(source, value, "a link")
    if "endpoints" not in attributes:
        source.refuse(value.line, "a link without 'endpoints'")
    endpoints = sequence(source, attributes.pop("endpoints"), "'endpoints'")
    if len(endpoints) != 2:
        source.refuse(value.line, "a link has two endpoints, and this one has %d" % len(endpoints))
    ends = [end_of(source, graph, endpoint) for endpoint in endpoints]
    edge = Edge((ends[0][0], ends[1][0]), value.line, (ends[0][1], ends[1][1]))
    if "vars" in attributes:
        take_attributes(source, edge, mapping(source, attributes.pop("vars"), "'vars'"), ("capacity", "name"), "vars.")
    take_attributes(source, edge, attributes, (), "")
    graph.edges.append(edge)


def end_of(source, graph, endpoint):
    """The node and the interface of an endpoint."""
    node, _, interface = text(source, endpoint, "an endpoint of the simple form 'node:interface'").partition(":")
    if node not in graph.nodes:
        source.refuse(endpoint.line, "the endpoint '%s' is of no node of this topology" % endpoint.value)
    return node, interface


def take_attributes(source, part, attributes, meant, prefix):
    """Keeps attributes: the ones that are meant by their names, and the others by their path."""
    for key, value in attributes.items():
        part.attributes[key if key in meant else prefix + key] = text(source, value, "'%s'" % key) if key in meant else ""


def mapping(source, value, what):
    if value.value is None:
        return {}
    return dict(of_type(source, value, dict, what))


def sequence(source, value, what):
    return of_type(source, value, list, what)


def text(source, value, what):
    return of_type(source, value, str, what)


def of_type(source, value, kind, what):
    if not isinstance(value.value, kind):
        source.refuse(value.line, "%s has to be %s, and is %s" % (what, WHAT[kind], WHAT.get(type(value.value), "empty")))
    return value.value
