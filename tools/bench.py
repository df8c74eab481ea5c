#!/usr/bin/env python3
"""Measures calls by themselves: `tools/bench.py NAME`, where NAME is cuts, promises, checks, roll, world, threads or reads.

tools/bench/NAME.rt.txt is a program without contracts; its head says what it measures, and its words. It is laid into a copy of the crates and built there
without proofs, in some three minutes, by tools/unproved_program.py. It is kept in ~/.cache/statesman/programs until the code changes. It works on the fat tree
of ten pods that `gen` prints, and on a random group at every limit (tools/measuring.py), as documents on standard input. A work is timed from outside, by the
least of so many runs less the least of such that do it no times; what is timed by the clock within a run stands in the program's own lines. Where peers are
installed they are given the same documents in the same minute, and how long they take is followed by how often ours goes into it.

  tools/bench.py checks --percent 100                  with promises of so many percent, here not of 50 and 100 in turn
  tools/bench.py --processors 0,1 promises wide 40     these works, on these processors alone
"""

import argparse
import hashlib
import os
import re
import shutil
import subprocess
import sys
import tempfile

import measuring

TOP = os.path.dirname(measuring.TOOLS)
BENCHES = os.path.join(measuring.TOOLS, "bench")
# What common.rt.txt stands on.
COMMON = "st_net st_io st_event st_doc st_grammar st_serial st_world"
ALL = (50, 90, 100)

# For each bench: its works, and the percentages that its groups promise.
RUNS = {
    "cuts": ("cuts 5", (50,)),
    "promises": ("start 5 checks 200 checks-links-down 200 checks-tor-down 200 wide 20", ALL),
    "checks": ("begin 200 basis 200 check 200 commit 200 parts 200", (50, 100)),
    "roll": ("kept 1 anew 1", (50, 90)),
    "world": ("locks 200000 reports 100000 rounds 5", (50,)),
    "threads": ("off-lock-1 200 under-lock-1 200 off-lock-2 200 under-lock-2 200 off-lock-4 200 under-lock-4 200", (50, 100)),
    "reads": ("paused-1 5000000 paused-2 5000000 paused-3 5000000 busy-1 1000000 busy-2 1000000 busy-3 1000000", (50,)),
}
# Works that time themselves by the clock.
BY_THEMSELVES = ("parts", "off-lock-", "under-lock-", "paused-", "busy-")
# What a work is compared with, where that is not the same done no times.
LESS = {"rounds": "failures"}
# The works that have peers which are asked for something, and for what.
ASKED = {"cuts": "cuts", "start": "tree"}
# These take minutes, and are run once.
ONCE = ("anew",)
# These are measured on the group at every limit alone.
LARGE_ALONE = ("world", "threads", "reads")


def main():
    parser = argparse.ArgumentParser(prog="bench", description=__doc__, formatter_class=argparse.RawDescriptionHelpFormatter)
    parser.add_argument("--percent", type=int, help="what the groups promise")
    parser.add_argument("--processors", help="the processors that may be used, as 0,1")
    parser.add_argument("--times", type=int, default=5, help="how often each is run (5)")
    parser.add_argument("--optimised", default="3", choices="013", help="how far the compiler optimises (3); with 0 the program is built sooner")
    parser.add_argument("name", choices=sorted(RUNS))
    parser.add_argument("words", nargs="*", help="other works than those that are usual: pairs of a work and how often")
    options = parser.parse_args()
    if options.processors:
        os.sched_setaffinity(0, {int(number) for number in options.processors.split(",")})
    words, percents = RUNS[options.name]
    program = built(options.name, options.optimised)
    with tempfile.TemporaryDirectory() as folder:
        peers = PEERS.get(options.name, lambda _: None)(folder)
        for percent in [options.percent] if options.percent else percents:
            for group, document in measuring.documents(percent).items():
                if options.name in LARGE_ALONE and group != "group at every limit":
                    continue
                print("%s, promises of %d percent" % (group, percent), flush=True)
                measure(options, program, peers, options.words or words.split(), document)
    return 0


def measure(options, program, peers, words, document):
    """Measures each work on a document, and the peers beside it."""
    for work, times in zip(words[::2], words[1::2]):
        if work.startswith(BY_THEMSELVES):
            told = measuring.Least(0, [program, work, times], document).text.decode()
            print("".join("  %s\n" % line for line in told.splitlines()), end="", flush=True)
            if peers:
                print_read_peers(peers, [work, times], told)
        else:
            each = measure_work(options, program, work, int(times), document)
            if peers and work in ASKED:
                print_peers(peers, ASKED[work], document, each)


def measure_work(options, program, work, times, document):
    """Prints what a work counted, and what one of it takes, and answers the milliseconds of the processor of one."""
    less = [LESS[work], str(times)] if work in LESS else [work, "0"]
    runs = 1 if work in ONCE else options.times
    done = measuring.Least(runs, [program, work, str(times)], document)
    none = measuring.Least(runs, [program, *less], document)
    each, clock = ((more - fewer) * 1e6 / times for more, fewer in ((done.seconds, none.seconds), (done.clock, none.clock)))
    print("  %s: each %.2f us, by the clock %.2f us; %s, without %s" % (done.text.decode().strip(), each, clock, done.memory.strip(), none.memory.strip()), flush=True)
    return each / 1e3


def print_peers(peers, asked, document, ours):
    """Prints how long the peers of a work take, and how many times as long as ours, which takes so many milliseconds."""
    for peer, (milliseconds, _) in measuring.peer_times(peers, asked, document).items():
        print("    %s: %.2f ms, %.2f times ours" % (peer, milliseconds, milliseconds / max(ours, 1e-6)), flush=True)


def read_peers(folder):
    """Builds peers/reads in a folder, and answers the program; None where there is no cargo or no source of the crates that they stand on."""
    sources = "/usr/share/cargo/registry"
    if not shutil.which("cargo") or not os.path.isdir(sources):
        print("no peers of reads: there is no cargo, or no librust-arc-swap-dev and librust-parking-lot-dev")
        return None
    crate = os.path.join(folder, "reads")
    shutil.copytree(os.path.join(measuring.PEERS, "reads"), crate)
    taken = ["--config", 'source.crates-io.replace-with="debian"', "--config", 'source.debian.directory="%s"' % sources]
    subprocess.run(["cargo", "build", "--release", "--offline", "--quiet", *taken], cwd=crate, check=True)
    return os.path.join(crate, "target/release/reads")


def print_read_peers(peers, words, ours):
    """Prints what the peers of reads come to with the same words, and how many times as many reads ours are."""
    for line in subprocess.run([peers, *words], stdout=subprocess.PIPE, check=True).stdout.decode().splitlines():
        print("    %s: ours are %.2f times as many at best" % (line, best_of(ours) / best_of(line)), flush=True)


def best_of(line):
    """The millions of reads a second of a line, at best."""
    return max(1, int(re.search(r"reads a second (\d+)", line)[1]))


def built(name, optimised):
    """The program of a bench, which is built where none is kept of this code."""
    source = os.path.join(BENCHES, name + ".rt.txt")
    with open(source, encoding="utf-8") as text:
        stands_on = COMMON + " " + re.search(r"^//! stands on: (.*)$", text.read(), re.M)[1]
    kept = os.path.join(os.environ.get("XDG_CACHE_HOME") or os.path.expanduser("~/.cache"), "statesman/programs")
    program = os.path.join(kept, "bench_%s-unproved-%s-%s" % (name, optimised, sum_of(source)))
    if os.path.exists(program):
        return program
    os.makedirs(kept, exist_ok=True)
    print("bench: builds the program without proofs: some three minutes", file=sys.stderr)
    with tempfile.TemporaryDirectory(prefix="statesman-bench-") as copy:
        lay_out(copy, source, stands_on)
        if subprocess.run([sys.executable, "tools/unproved_program.py", "--crate", "bench", "--optimised", optimised, program], cwd=copy, check=False).returncode:
            sys.exit("bench: the program could not be built")
    return program


def lay_out(copy, source, stands_on):
    """A copy of the crates' code with the bench as one more crate."""
    shutil.copytree(os.path.join(TOP, "crates"), os.path.join(copy, "crates"), ignore=shutil.ignore_patterns("out", "proofs", "must-fail", "planted", "data"))
    os.makedirs(os.path.join(copy, "tools"))
    shutil.copy(os.path.join(measuring.TOOLS, "unproved_program.py"), os.path.join(copy, "tools"))
    crate = os.path.join(copy, "crates/bench/src")
    os.makedirs(crate)
    shutil.copy(source, os.path.join(crate, "main.rt"))
    shutil.copy(os.path.join(BENCHES, "common.rt.txt"), os.path.join(crate, "common.rt"))
    with open(os.path.join(TOP, "crates.txt"), encoding="utf-8") as lines, open(os.path.join(copy, "crates.txt"), "w", encoding="utf-8") as to:
        to.write(lines.read() + "bench: %s\n" % stands_on)


def sum_of(source):
    """A sum of all code that a bench is built of, and of what builds it."""
    files = [source, os.path.join(BENCHES, "common.rt.txt"), os.path.join(TOP, "crates.txt"), os.path.join(measuring.TOOLS, "unproved_program.py")]
    for folder, folders, names in os.walk(os.path.join(TOP, "crates")):
        folders[:] = sorted(name for name in folders if name != "out")
        files += [os.path.join(folder, name) for name in sorted(names) if name.endswith(".rt")]
    total = hashlib.sha256()
    for file in files:
        with open(file, "rb") as text:
            total.update(text.read())
    return total.hexdigest()[:16]


# What builds the peers of a bench.
PEERS = {"cuts": measuring.least_cut_peers, "promises": measuring.least_cut_peers, "reads": read_peers}


if __name__ == "__main__":
    sys.exit(main())
