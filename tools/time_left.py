"""Estimates how long a proof of several crates still takes: `python3 tools/time_left.py --lanes 4 --minutes 12 --done st_net,st_io <LINES`.

Standard input has a line of crates.txt for each crate that is to be proved. tools/proof_minutes.txt has what each took where it was measured;
of others it goes by bytes. The crates that are left are laid out in lanes as they are proved, each behind those that it stands on; what
is done tells how much slower or faster than measured this machine is. Prints the minutes that are left.
"""

import argparse
import heapq
import os
import sys

TOOLS = os.path.dirname(os.path.abspath(__file__))
CRATES = os.path.join(os.path.dirname(TOOLS), "crates")
# So many minutes count as if they had gone as measured, so that the first crates do not decide alone.
PRIOR = 2.0
# The half of the crates that were measured took more, the other half less.
MINUTES_PER_BYTE = 1 / 40000


def main():
    parser = argparse.ArgumentParser(prog="time_left", description=__doc__, formatter_class=argparse.RawDescriptionHelpFormatter)
    parser.add_argument("--lanes", type=int, default=1, help="how many crates are proved at a time")
    parser.add_argument("--minutes", type=float, default=0, help="how long it has taken so far")
    parser.add_argument("--done", default="", help="the crates that are done, with commas between them")
    options = parser.parse_args()
    below = {}
    for line in sys.stdin:
        name, found, used = line.partition(":")
        if found:
            below[name.strip()] = used.split()
    measured = measured_minutes()
    minutes = {name: measured[name] if name in measured else minutes_by_bytes(name) for name in below}
    done = set(options.done.split(","))
    whole = time_of(below, minutes, options.lanes)
    left = time_of({name: used for name, used in below.items() if name not in done}, minutes, options.lanes)
    pace = (options.minutes + PRIOR) / (whole - left + PRIOR)
    print(max(1, round(left * pace)) if left else 0)
    return 0


def measured_minutes():
    with open(os.path.join(TOOLS, "proof_minutes.txt"), encoding="utf-8") as lines:
        rows = [line.split() for line in lines if line.strip() and not line.startswith("#")]
    return {name: float(minutes) for name, minutes in rows}


def minutes_by_bytes(name):
    size = 0
    for part in ("src", "specs", "proofs"):
        for at, _, files in os.walk(os.path.join(CRATES, name, part)):
            size += sum(os.path.getsize(os.path.join(at, file)) for file in files)
    return size * MINUTES_PER_BYTE


def time_of(below, minutes, lanes):
    """How long these crates take in so many lanes, each begun when a lane is free and all that it stands on is done."""
    waiting, running, done, now = list(below), [], set(), 0.0
    while waiting or running:
        ready = [name for name in waiting if all(used in done or used not in below for used in below[name])]
        for name in ready[:lanes - len(running)]:
            waiting.remove(name)
            heapq.heappush(running, (now + minutes[name], name))
        if not running:
            sys.exit("time_left: a crate stands on itself: %s" % ", ".join(waiting))
        now, name = heapq.heappop(running)
        done.add(name)
    return now


if __name__ == "__main__":
    sys.exit(main())
