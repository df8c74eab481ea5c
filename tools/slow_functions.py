"""Says which functions a check took its time for: `python3 tools/slow_functions.py [--most N] CRATE..`.

`rt check --jobs 1` leaves a file below out/incremental as each part of a proof is done, so the time between two files is what the
later one took. To be run after a crate was checked from nothing, in one go, by one job; where other work runs beside it, all times
are longer by as much.

For each crate the dearest functions and files of lemmas are listed, each with its dearest parts: `Lts` is what becomes of borrows
and of values that are let go of, `Proof` what is searched for, `Answers` what is answered by hand.
"""

import argparse
import collections
import os
import re
import sys

CRATES = os.path.join(os.path.dirname(os.path.dirname(os.path.abspath(__file__))), "crates")
PARTS = "Lts|Proof|Goals|Answers|Invariants|Tie|Reads|Layout|Kinds[^.]*|Code|Carried[^.]*|Key"
LEAST_SECONDS = 0.5


def name_of(crate, file):
    """The function or the file of lemmas that a file was left for, and the part of it."""
    name = re.sub(r"(\.decls)?\.oantt$", "", file)
    name = re.sub(rf"^Rattle-{crate}[-.](proofs\.)?", "", name)
    found = re.fullmatch(rf"(.+?)\.({PARTS})(\..*)?", name)
    return (found[1], found[2]) if found else (name, "")


def files_below(folder):
    """When each file was left, and its name, in order of time."""
    found = []
    for at, _, names in os.walk(folder):
        for name in names:
            if name.endswith(".oantt"):
                found.append((os.lstat(os.path.join(at, name)).st_mtime, name))
    return sorted(found)


def seconds_by_part(crate, files):
    """The seconds of each part of each function."""
    taken = collections.defaultdict(collections.Counter)
    for (before, _), (after, file) in zip(files, files[1:]):
        function, part = name_of(crate, file)
        taken[function][part] += after - before
    return taken


def tell(crate, folder, most):
    """Prints the dearest functions of a crate."""
    files = files_below(folder)
    if not files:
        sys.exit(f"slow_functions: no check left anything in {folder}")
    taken = seconds_by_part(crate, files)
    print(f"{crate}: {files[-1][0] - files[0][0]:.0f} s")
    for function, parts in sorted(taken.items(), key=lambda item: -sum(item[1].values()))[:most]:
        dearest = [f"{part} {seconds:.1f}" for part, seconds in parts.most_common(3) if part and seconds >= LEAST_SECONDS]
        print(f"  {sum(parts.values()):6.1f} s  {function}  {', '.join(dearest)}".rstrip())


def main():
    parser = argparse.ArgumentParser(prog="slow_functions", description=__doc__, formatter_class=argparse.RawDescriptionHelpFormatter)
    parser.add_argument("--most", type=int, default=12, metavar="N", help="how many functions of each crate (default: 12)")
    parser.add_argument("--crates", default=CRATES, metavar="FOLDER", help="the folder of the crates (default: that of this repository)")
    parser.add_argument("crate", nargs="+", metavar="CRATE")
    options = parser.parse_args()
    for crate in options.crate:
        tell(crate, os.path.join(options.crates, crate, "out", "incremental"), options.most)
    return 0


if __name__ == "__main__":
    sys.exit(main())
