#!/usr/bin/env python3
"""Prints a document of groups as PROGRAM makes one with `gen`, each with an application that upgrades it again and again:
`tools/many_rounds.py PROGRAM PODS GROUPS ROUNDS [mixed]`.

A round gives a firmware to an aggregation switch of each of four pods, and in a tree of four pods to two cores too, waits for the verdict
and settles. With `mixed` every other round is of all but one of the aggregation switches of one pod, and is refused. An application has
room for 340 rounds.
"""

import subprocess
import sys


def main():
    program, pods, groups, rounds = sys.argv[1], *[int(word) for word in sys.argv[2:5]]
    mixed = sys.argv[5:] == ["mixed"]
    text = subprocess.run([program, "gen", "--pods", str(pods)], stdout=subprocess.PIPE, check=True).stdout.decode()
    group = text[text.index("group dc1\n"):text.index("app up\n")]
    names = ["dc%d" % number for number in range(1, groups + 1)]
    sys.stdout.write("statesman 1\n" + "".join(group.replace("dc1", name) for name in names))
    for name in names:
        sys.stdout.write("app of_%s\n" % name)
        for number in range(rounds):
            rows = refused_rows(pods, number) if mixed and number % 2 else accepted_rows(pods, number)
            sys.stdout.write("propose %s %s\nawait %s\nsettle %s 1\n" % (name, " ".join(rows), name, name))


def accepted_rows(pods, number):
    """An aggregation switch of each of four pods, at the same place in each."""
    place = number % (pods // 2)
    first = number // (pods // 2) % (pods // 4) * 4
    rows = ["p%da%d.firmware=%d" % (pod, place, number + 2) for pod in range(first, first + 4)]
    if pods == 4:
        rows += ["c%d.firmware=%d" % (2 * place + core, number + 2) for core in range(2)]
    return rows


def refused_rows(pods, number):
    """All but one of the aggregation switches of a pod."""
    return ["p%da%d.firmware=%d" % (number // 2 % pods, place, number + 2) for place in range(pods // 2 - 1)]


if __name__ == "__main__":
    main()
