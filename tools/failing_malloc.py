"""Runs the program on each example once for each of its allocations, which fails: `python3 tools/failing_malloc.py`.

The failing call is made by failing_malloc.c, compiled into a temporary folder and laid over the C library by LD_PRELOAD. By
docs/FORMATS.md a run ends with status 9 and a prefix of the output that it would have had, or with that whole output and its
status. Any other ending is printed, and the exit status is then 1; it is 2 where nothing could be tried.

`roll` is given firmware 2 and `revert` version 0, and `replay` the journals of `serial` behind the document; `gen` and `demo` are run
once, without a document. Of `run` with several applications each whole report is right that the second reading lets through, and so
is the beginning of one.
"""

import argparse
import glob
import os
import signal
import struct
import subprocess
import sys
import tempfile
import time
from typing import NamedTuple

sys.dont_write_bytecode = True

TOOLS = os.path.dirname(os.path.abspath(__file__))
sys.path.insert(0, os.path.join(TOOLS, "second_reading"))

from comparisons import Reading  # noqa: E402
from report_reading import Unreadable  # noqa: E402
from trying_runs import is_order_free, wrong_in_report_text  # noqa: E402

REPOSITORY = os.path.dirname(TOOLS)
OUT_OF_MEMORY = 9
SECONDS_OF_A_RUN = 60


class Ending(NamedTuple):
    status: int
    output: bytes
    errors: bytes
    calls: int


class Layer:
    """The program with the layer over malloc."""

    def __init__(self, program, folder, calls_on):
        self.program = program
        self.library = os.path.join(folder, "failing_malloc.so")
        self.count = os.path.join(folder, "calls")
        self.calls_on = calls_on
        source = os.path.join(TOOLS, "failing_malloc.c")
        subprocess.run([os.environ.get("CC", "cc"), "-O2", "-Wall", "-fPIC", "-shared", "-o", self.library, source], check=True)

    def run(self, words, text, failing_call):
        """Runs the program on a text; call number `failing_call` fails, or none where it is 0."""
        with open(self.count, "wb") as count:
            count.write(bytes(8))
        environment = {"LD_PRELOAD": self.library, "CALLS_COUNTED": self.count, "FAILING_CALL": str(failing_call)}
        if self.calls_on:
            environment["FAILING_CALLS_ON"] = "1"
        try:
            done = subprocess.run([self.program, *words], input=text, stdout=subprocess.PIPE, stderr=subprocess.PIPE,
                                  env=environment, timeout=SECONDS_OF_A_RUN, check=False)
        except subprocess.TimeoutExpired as late:
            return Ending(None, late.stdout or b"", late.stderr or b"", 0)
        with open(self.count, "rb") as count:
            calls, = struct.unpack("=Q", count.read(8))
        return Ending(done.returncode, done.stdout, done.stderr, calls)


class Task(NamedTuple):
    """Words with what the program reads; `reading` where the outcome is free, and judged by a second reading of the document."""

    name: str
    words: tuple
    text: bytes
    reading: object = None

    def is_right(self, clean, ending):
        """Whether a run that was refused memory ended as one that was not."""
        if self.reading is None or ending.status != 0:
            return (ending.status, ending.output) == (clean.status, clean.output)
        try:
            return not wrong_in_report_text(self.reading, ending.output.decode("latin-1"))
        except Unreadable:
            return False

    def is_beginning(self, clean, ending):
        """Whether the output is a part of a whole one, from its beginning."""
        if self.reading is None:
            return clean.output.startswith(ending.output) and ending.output != clean.output
        return b"statesman report 1\n".startswith(ending.output[:19]) and not ending.output.endswith(b"\nend\n")


class Tally:
    """What the runs of one task came to."""

    def __init__(self, task, clean):
        self.task, self.clean = task, clean
        self.held, self.empty, self.whole, self.other = 0, 0, 0, []

    def take(self, call, ending):
        if ending.status == OUT_OF_MEMORY and self.task.is_beginning(self.clean, ending):
            self.held += 1
            self.empty += not ending.output
        elif self.task.is_right(self.clean, ending):
            self.whole += 1
        else:
            self.other.append((call, ending))


def ending_text(status):
    if status is None:
        return "no end within %d seconds" % SECONDS_OF_A_RUN
    if status < 0:
        return "signal %s" % signal.Signals(-status).name
    return "status %d" % status


def try_task(layer, task, end):
    """Lets one call after the other fail until none does; answers how many endings are findings."""
    clean = layer.run(task.words, task.text, 0)
    tally, call, unmet = Tally(task, clean), 0, 0
    while time.monotonic() < end:
        call += 1
        ending = layer.run(task.words, task.text, call)
        if ending.status is not None and ending.calls < call:
            if not task.is_right(clean, ending):
                tally.other.append((call, ending))
            unmet += 1
            # Where the order of threads is free, so is how often they allocate.
            if unmet == (1 if task.reading is None else 20):
                break
        else:
            tally.take(call, ending)
    else:
        print("%s: out of time at call %d" % (task.name, call))
    print("%s: %s, %d bytes of output, %d allocations; failing one: %d ended with status 9 and a prefix (%d of them empty), "
          "%d with status %s and the whole output, %d otherwise" % (
              task.name, ending_text(clean.status), len(clean.output), clean.calls, tally.held, tally.empty, tally.whole,
              clean.status, len(tally.other)))
    for call, ending in tally.other[:5]:
        print("  call %d: %s, output %r, errors %r" % (
            call, ending_text(ending.status), ending.output[-200:], ending.errors[-200:]))
    sys.stdout.flush()
    return len(tally.other)


def tasks_of(program, path):
    """What is tried with a document."""
    with open(path, "rb") as file:
        text = file.read()
    name, reading = os.path.basename(path), Reading(text)
    yield Task("check " + name, ("check",), text)
    yield Task("serial " + name, ("serial",), text)
    yield Task("run " + name, ("run",), text, reading if is_order_free(reading) else None)
    yield Task("roll " + name, ("roll", "--to", "2"), text)
    yield Task("revert " + name, ("revert", "--to", "0"), text)
    printed = subprocess.run([program, "serial", "--form", "replay"], input=text, stdout=subprocess.PIPE, check=False)
    if printed.returncode == 0:
        yield Task("replay " + name, ("replay",), printed.stdout)


def tasks(program, documents):
    for path in documents:
        yield from tasks_of(program, path)
    yield Task("gen", ("gen",), b"")
    yield Task("demo", ("demo",), b"")


def main():
    parser = argparse.ArgumentParser(prog="failing_malloc", description=__doc__)
    parser.add_argument("--program", help="the program to try (the one that ./statesman runs)")
    parser.add_argument("--seconds", type=float, default=600, help="after so many seconds no further call fails (600)")
    parser.add_argument("--calls-on", action="store_true", help="let each call behind the failing one fail too")
    parser.add_argument("--commands", default="check,serial,run,roll,revert,replay,gen,demo", help="which commands (all)")
    parser.add_argument("documents", nargs="*", help="files (those of examples/)")
    options = parser.parse_args()
    if options.program is None:
        found = subprocess.run([os.path.join(TOOLS, "program_path.sh"), "statesman_cli"], stdout=subprocess.PIPE, check=True)
        options.program = found.stdout.decode().strip()
    if not os.access(options.program, os.X_OK):
        print("no program at %s" % options.program)
        return 2
    documents = options.documents or sorted(glob.glob(os.path.join(REPOSITORY, "examples", "*.txt")))
    end = time.monotonic() + options.seconds
    findings = 0
    with tempfile.TemporaryDirectory() as folder:
        layer = Layer(options.program, folder, options.calls_on)
        for task in tasks(options.program, documents):
            if task.words[0] in options.commands.split(","):
                findings += try_task(layer, task, end)
    return 1 if findings else 0


if __name__ == "__main__":
    sys.exit(main())
