"""Runs a command, and says what processor time it took by crate: `python3 tools/gate_times.py rt ci >times.md`.

For the merge gate from nothing, with nothing else at work: `rt ci`, and on a machine that has kept what it passed `rt ci --anew`. The command's own
output goes to standard error. What its processes took is looked up ten times a second, so what began and ended between two looks is not seen: the last
line sets what was seen against the whole, as the system counts it.
"""

import argparse
import collections
import os
import re
import subprocess
import sys
import time

TICKS = os.sysconf("SC_CLK_TCK")
KINDS = ("proof", "tests", "planted bugs")


def main():
    parser = argparse.ArgumentParser(prog="gate_times", description=__doc__, formatter_class=argparse.RawDescriptionHelpFormatter)
    parser.add_argument("command", nargs=argparse.REMAINDER, help="the command with its words")
    options = parser.parse_args()
    if not options.command:
        parser.error("no command")
    begin = time.monotonic()
    command = subprocess.Popen(options.command, stdin=subprocess.DEVNULL, stdout=sys.stderr)
    seen = {}
    while command.poll() is None:
        look(command.pid, seen)
        time.sleep(0.1)
    tell(seen, time.monotonic() - begin)
    return command.returncode


def look(root, seen):
    """Notes of each process below the command what it took so far, and what for."""
    processes = {pid: found for pid in os.listdir("/proc") if pid.isdigit() and (found := process(pid))}
    below = collections.defaultdict(list)
    for pid, (parent, _, _) in processes.items():
        below[parent].append(pid)
    work = [(str(root), (None, None))]
    while work:
        pid, given = work.pop()
        if pid in processes:
            _, began, seconds = processes[pid]
            # (of a process that has ended, and is not waited for yet, the words are gone)
            here = purpose(pid) or seen.get((pid, began), (given,))[0]
            seen[pid, began] = (here, seconds)
            work += [(child, here) for child in below[pid]]


def process(pid):
    """The parent of a process, when it began, and the seconds of processor time that it took itself, if it still runs."""
    try:
        with open("/proc/%s/stat" % pid, encoding="utf-8", errors="replace") as it:
            fields = it.read().rpartition(")")[2].split()
    except OSError:
        return None
    return fields[1], fields[19], (int(fields[11]) + int(fields[12])) / TICKS


def purpose(pid):
    """The crate that a process of the toolchain works for, and whether for its proof, its tests or a planted bug, where its words tell."""
    try:
        with open("/proc/%s/cmdline" % pid, "rb") as it:
            words = it.read().decode(errors="replace").split("\0")
        place = os.readlink("/proc/%s/cwd" % pid)
    except OSError:
        return None
    if "--crate-name" not in words[:-1]:
        return None
    crate = words[words.index("--crate-name") + 1]
    if re.search(r"/rt-edits?-", place + "/"):
        return crate, "planted bugs"
    return crate, "tests" if "--test" in words else "proof"


def tell(seen, elapsed):
    """Prints a table in processor minutes, and what is behind it."""
    taken = collections.defaultdict(collections.Counter)
    rest = 0
    for (crate, kind), seconds in seen.values():
        if crate is None:
            rest += seconds
        else:
            taken[crate][kind] += seconds
    print("| crate | %s |" % " | ".join(KINDS))
    print("|---" * (len(KINDS) + 1) + "|")
    for crate, kinds in taken.items():
        print("| `%s` | %s |" % (crate, " | ".join(minutes(kinds[kind]) for kind in KINDS)))
    sums = [sum(kinds[kind] for kinds in taken.values()) for kind in KINDS]
    print("| together | %s |" % " | ".join(minutes(it) for it in sums))
    whole = os.times()
    print()
    print("seen: %s minutes for crates, %s for the command itself and what it tries and runs; by the system %s; by the clock %s" % (
        minutes(sum(sums)), minutes(rest), minutes(whole.children_user + whole.children_system), minutes(elapsed)))


def minutes(seconds):
    return "%.1f" % (seconds / 60) if seconds else ""


if __name__ == "__main__":
    sys.exit(main())
