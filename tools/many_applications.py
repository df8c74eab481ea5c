#!/usr/bin/env python3
"""Prints a document of many applications on many groups, for `serial` and `run` to be timed on.

    many_applications.py [--apps 32] [--groups 16] [--commands 1024]

Each group has two racks that two switches join. Application i begins at group i and goes round through all groups: of every four
commands two propose another config of a switch, one awaits it, and one reads it.
"""
import argparse


def group(name):
    return [
        f"group {name}",
        *(f"device {device} {kind}" for device, kind in (("t1", "tor"), ("t2", "tor"), ("a1", "switch"), ("a2", "switch"))),
        *(f"link {link} {tor} {switch} 10" for link, tor, switch in (("l1", "t1", "a1"), ("l2", "t1", "a2"), ("l3", "t2", "a1"), ("l4", "t2", "a2"))),
        "promise t1 t2 50",
    ]


def command(app, turn, groups):
    name = f"g{(app + turn // 4) % groups}"
    return [
        f"propose {name} a1.config={turn % 1000}",
        f"propose {name} a1.routing={turn // 4 % 2}",
        f"await {name}",
        f"read {name} a1.config",
    ][turn % 4]


def main():
    options = argparse.ArgumentParser(description=__doc__, formatter_class=argparse.RawDescriptionHelpFormatter)
    options.add_argument("--apps", type=int, default=32)
    options.add_argument("--groups", type=int, default=16)
    options.add_argument("--commands", type=int, default=1024)
    given = options.parse_args()
    print("statesman 1")
    for n in range(given.groups):
        print("\n".join(group(f"g{n}")))
    for app in range(given.apps):
        print(f"app a{app}")
        for turn in range(given.commands):
            print(command(app, turn, given.groups))


main()
