#!/usr/bin/env python3
"""Prints a document whose page has what is seldom drawn: `python3 tools/page_documents.py links | PROGRAM serial --form replay >run.txt`.

`thirty` is a network of thirty devices with three applications; in `links` links are locked, failed, off and refused, a device is blocked,
and promises are of 0 percent; `groups` has sixteen groups, `names` long names, `applications` twelve applications, and in `losses` many
promises are lost.
"""

import argparse


class Tree:
    """A group of pods, each of ToRs and aggregation switches, below cores."""

    def __init__(self, name, pods, tors, aggregations, cores, names=("p%d-tor%d", "p%d-agg%d", "core%d")):
        self.name = name
        self.pods = [([names[0] % (pod, i) for i in range(1, tors + 1)], [names[1] % (pod, i) for i in range(1, aggregations + 1)])
                     for pod in range(1, pods + 1)]
        self.cores = [names[2] % i for i in range(1, cores + 1)]
        self.tors = [tor for below, _ in self.pods for tor in below]

    def lines(self, most_promises=None, percent=50):
        above = [switch for _, switches in self.pods for switch in switches] + self.cores
        links = [(tor, switch, 40) for below, switches in self.pods for tor in below for switch in switches]
        links += [(switch, core, 100) for _, switches in self.pods for switch in switches for core in self.cores]
        pairs = [(first, second) for place, first in enumerate(self.tors) for second in self.tors[place + 1:]]
        return (["group " + self.name] + ["device %s tor" % tor for tor in self.tors] + ["device %s switch" % switch for switch in above]
                + ["link %s %s %s %d" % (self.link(first, second, number), first, second, capacity) for number, (first, second, capacity) in enumerate(links)]
                + ["promise %s %s %d" % (*pair, percent) for pair in pairs[:most_promises]])

    @staticmethod
    def link(first, second, number):
        name = first + "_" + second
        return name if len(name) <= 32 else "l%d" % number


def commands(group, words):
    """Lines of scripts, written without the group: `propose core1.power=0`."""
    lines = []
    for line in words.strip().splitlines():
        command, *rest = line.split()
        lines.append(" ".join([command] + ([] if command in ("app", "order") else [group]) + rest))
    return lines


def thirty():
    return Tree("east", 5, 3, 2, 5).lines() + commands("east", """
app firmware
fail p1-agg1_core2 0
poll p1-agg1_core2
fail core3 3
poll core3
fail p2-tor1_p2-agg1 0
propose p1-agg1.firmware=7 p2-agg1.firmware=7 p3-agg1.firmware=7
await
settle 1
propose core1.firmware=7 core2.firmware=7 core3.firmware=7 core4.firmware=7 core5.firmware=7
await
settle 2
propose p1-agg1.firmware=8 p1-agg2.firmware=8
await
propose core1.firmware=8
await
settle 2
app te
lock core5 high
lock p3-agg1_core1 high
propose core5.routing=0
await
settle 1
propose p3-agg1_core1.power=0
await
settle 2
app mitigation
fail p4-agg1 2
poll p4-agg1
propose p4-agg1.power=0
await
settle 2
propose core5.firmware=9
await
propose p3-agg1_core1.iface=2
await
propose p2-agg2.firmware=9
await
order firmware te mitigation
""")


def links():
    return Tree("dc1", 2, 2, 2, 2).lines(1) + Tree("dc1", 2, 2, 2, 2).lines(percent=0)[-5:] + commands("dc1", """
drop report 3
app te
lock p1-tor1_p1-agg1 high
lock p1-agg1_core1 low
fail p1-agg2_core1 0
fail p2-tor1_p2-agg2 0
poll p2-tor1_p2-agg2
propose p1-tor1_p1-agg1.iface=2 p2-agg1_core1.power=0
await
settle 2
propose core1.power=0 core1.firmware=1
await
settle 1
propose p2-agg1_core1.iface=3
await
app other
propose p1-tor1_p1-agg1.iface=4
await
propose p2-agg1_core1.iface=3 p2-agg2_core1.iface=3
await
propose p2-agg1.power=0 p2-tor1_p2-agg1.iface=2
await
settle 2
propose p1-tor2_p1-agg1.power=0 p1-tor2_p1-agg2.power=0
await
propose p2-tor1.firmware=3 p2-tor1_p2-agg2.iface=3
await
propose p2-tor1_p2-agg2.iface=3
await
propose core2.firmware=3 core1.firmware=3
await
propose p2-agg2.firmware=3
await
settle 2
propose p2-agg2.config=4
await
fail p2-agg2 2
poll p2-agg2
settle 2
order te other
""")


def groups():
    sites = ["site-%02d-west" % number for number in range(1, 17)]
    lines = [line for site in sites for line in Tree(site, 2, 2, 2, 2).lines()] + ["app up"]
    for site in sites:
        lines += commands(site, "propose p1-agg1.firmware=2\nawait\npropose p1-agg2.firmware=2 p2-agg2.firmware=2\nawait")
    lines += ["app te"] + ["propose %s core1.routing=0" % site for site in sites[::3]]
    return lines + ["fail site-11-west core2 0"]


def names():
    tree = Tree("names", 8, 2, 2, 4, ("rack-%02d-top-of-rack-%d-west", "aggregation-%02d-%d-hall-west-2", "spine-router-%02d-hall-west-2"))
    return tree.lines(12) + commands("names", """
app upgrade-of-the-aggregation-layer
propose aggregation-01-1-hall-west-2.firmware=3
await
settle 2
propose aggregation-01-1-hall-west-2.firmware=4 aggregation-01-2-hall-west-2.firmware=4
await
fail spine-router-02-hall-west-2 0
""")


def applications():
    """Twelve, of which two are named as words of a journal."""
    named = ["app-%02d" % number for number in range(1, 11)] + ["receipt", "accepted"]
    lines = Tree("dc1", 2, 2, 2, 2).lines()
    for number, name in enumerate(named):
        lines += commands("dc1", "app %s\nlock core%d low\npropose p%d-agg%d.firmware=%d\nawait\nsettle 1"
                          % (name, number % 2 + 1, number % 2 + 1, number // 2 % 2 + 1, number + 2))
    return lines + ["order " + " ".join(named)]


def losses():
    lines = ["app monitor"]
    for name in ("core1", "p1-agg1", "core2", "p2-agg1", "p2-agg2"):
        lines += ["fail %s 0" % name, "poll " + name]
    lines += ["fail core2 5", "poll core2", "fail p2-agg1 5"]
    return Tree("dc1", 3, 3, 2, 2).lines() + commands("dc1", "\n".join(lines))


DOCUMENTS = {"thirty": thirty, "links": links, "groups": groups, "names": names, "applications": applications, "losses": losses}


def main():
    options = argparse.ArgumentParser(description=__doc__, formatter_class=argparse.RawDescriptionHelpFormatter)
    options.add_argument("name", choices=DOCUMENTS, help="which document")
    print("\n".join(["statesman 1"] + DOCUMENTS[options.parse_args().name]()))


if __name__ == "__main__":
    main()
