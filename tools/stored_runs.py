"""Does the stored runs with programs that are built, and compares what they print and how they end with what is stored:
`python3 tools/stored_runs.py CRATE=PROGRAM..`, where CRATE is statesman_cli or statesman_player.

These are the runs of crates/statesman_examples, each as it is typed, by the program of statesman_cli, and the stored run of each CRATE
(its files args, stdin, stdout and status). Prints how each run that differs does so; the last line is `N passed, M failed`, and the exit
status is 1 where one failed.
"""

import argparse
import difflib
import os
import subprocess
import sys

CRATES = os.path.join(os.path.dirname(os.path.dirname(os.path.abspath(__file__))), "crates")
EXAMPLES = os.path.join(CRATES, "statesman_examples")
TYPED = "$ ./statesman "
SECONDS = 120


def main():
    parser = argparse.ArgumentParser(prog="stored_runs", description=__doc__, formatter_class=argparse.RawDescriptionHelpFormatter)
    parser.add_argument("programs", nargs="+", metavar="CRATE=PROGRAM", help="where the program of a crate lies")
    passed, failed = 0, 0
    for named in parser.parse_args().programs:
        crate, _, program = named.partition("=")
        for name, wanted, found in runs_of(crate, os.path.abspath(program)):
            passed += found == wanted
            failed += found != wanted
            if found != wanted:
                tell(name, wanted, found)
    print("%d passed, %d failed" % (passed, failed))
    return 1 if failed or not passed else 0


def runs_of(crate, program):
    """The name of each run of a program, what is stored of it, and what the program did."""
    yield stored_run(crate, program)
    if crate == "statesman_cli":
        yield from examples(program)


def stored_run(crate, program):
    folder = os.path.join(CRATES, crate)
    words = read(folder, "args").decode().splitlines()
    status = int(read(folder, "status").decode().strip() or 0)
    return "the stored run of " + crate, ending(read(folder, "stdout"), status), run(program, words, read(folder, "stdin"))


def examples(program):
    """The runs of the examples: each line of args is words as they are typed, the last of which may name a file of data/."""
    stored = stored_examples()
    typed = read(EXAMPLES, "args").decode().splitlines()
    for line in typed:
        words, given = line.split(), b""
        if words[-1].startswith("<"):
            given = read(EXAMPLES, os.path.join("data", words.pop()[1:]))
        yield "./statesman " + line, stored.pop(line, b"nothing is stored"), run(program, words, given)
    for line in stored:
        yield "./statesman " + line, b"a line of args", b"none"


def stored_examples():
    """What is stored of each run of the examples, by its words."""
    stored = {}
    # A run ends with an empty line.
    text = "\n" + read(EXAMPLES, "stdout").decode().removesuffix("\n")
    for block in text.split("\n" + TYPED)[1:]:
        line, _, rest = block.partition("\n")
        stored[line] = rest.encode()
    return stored


def run(program, words, given):
    """What a program prints, and its exit status in a line behind that."""
    try:
        ran = subprocess.run([program, *words], input=given, stdout=subprocess.PIPE, stderr=subprocess.DEVNULL, timeout=SECONDS)
    except subprocess.TimeoutExpired:
        return b"not ended after %d seconds" % SECONDS
    return ending(ran.stdout, ran.returncode)


def ending(printed, status):
    return printed + b"exit %d\n" % status


def read(folder, name):
    """The bytes of a file, and none where there is no such file."""
    try:
        with open(os.path.join(folder, name), "rb") as file:
            return file.read()
    except FileNotFoundError:
        return b""


def tell(name, wanted, found):
    wanted, found = (text.decode(errors="replace").splitlines() for text in (wanted, found))
    lines = list(difflib.unified_diff(wanted, found, "what is stored", "what was printed", lineterm=""))
    print("%s: FAILED" % name, *[line[:300] for line in lines[:20]], sep="\n", flush=True)


if __name__ == "__main__":
    sys.exit(main())
