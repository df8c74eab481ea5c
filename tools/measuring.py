"""What measure.py and bench.py have in common: the two groups that they work on, as documents; runs of a program, and the peers."""

import os
import shutil
import subprocess
import sys
import tempfile
import time

TOOLS = os.path.dirname(os.path.abspath(__file__))
PEERS = os.path.join(TOOLS, "peers")
HEAD = ["statesman 1", "group dc1"]
CAPACITIES = 1_000_000


def documents(percent):
    """The documents of both groups, by name, with promises of so many percent between each two ToRs."""
    return {"fat tree": text_of(fat_tree(10, percent)), "group at every limit": text_of(full_group(percent))}


def text_of(lines):
    return "".join(line + "\n" for line in lines).encode()


def fat_tree(pods, percent):
    """The group that `gen --pods 10` prints, with other promises: of ten pods 125 devices, 500 links and 1,225 promises."""
    half = range(pods // 2)
    devices, links = [], []
    for pod in range(pods):
        devices += ["device p%dt%d tor" % (pod, i) for i in half] + ["device p%da%d switch" % (pod, j) for j in half]
        links += ["link p%dt%da%d p%dt%d p%da%d 10" % (pod, i, j, pod, i, pod, j) for i in half for j in half]
    devices += ["device c%d switch" % core for core in range(len(half) ** 2)]
    for pod in range(pods):
        links += ["link p%da%dc%d p%da%d c%d 10" % (pod, j, j * len(half) + core, pod, j, j * len(half) + core) for j in half for core in half]
    return [*HEAD, *devices, *links, *promises(["p%dt%d" % (pod, i) for pod in range(pods) for i in half], percent)]


def full_group(percent):
    """A group at every limit: 64 ToRs with eight links each, 448 switches, and 4,096 links with capacities by chance, always the same."""
    below = numbers()
    links = []
    def join(a, b):
        capacity = 1 + below(CAPACITIES)
        if a != b and len(links) < 4096:
            links.append("link l%d d%d d%d %d" % (len(links), a, b, capacity))
    for tor in range(64):
        for _ in range(8):
            join(tor, 64 + below(448))
    while len(links) < 4096:
        a = 64 + below(448)
        join(a, 64 + below(448))
    devices = ["device d%d %s" % (number, "tor" if number < 64 else "switch") for number in range(512)]
    return [*HEAD, *devices, *links, *promises(["d%d" % number for number in range(64)], percent)]


def numbers():
    """A function that answers the next number below a limit of a sequence without a pattern."""
    state = 1
    def below(limit):
        nonlocal state
        state = (state * 6364136223846793005 + 1442695040888963407) % 2**64
        return (state >> 33) % limit
    return below


def promises(tors, percent):
    return ["promise %s %s %d" % (a, b, percent) for number, a in enumerate(tors) for b in tors[number + 1 :]]


class Least:
    """The least of so many runs of a program on a document: seconds of the processor and by the clock, of the whole process. And of one run more the text that
    was written, and the most memory in MB, where there is GNU time to tell it: the system counts to a process what the one that began it had."""

    def __init__(self, times, words, document=b"", processors=None, statuses=(0,)):
        self.seconds, self.clock, self.statuses = float("inf"), float("inf"), statuses
        with tempfile.TemporaryFile() as given:
            given.write(document)
            for _ in range(times):
                self.run(words, given, processors)
            self.run_timed(words, given)

    def run(self, words, given, processors):
        given.seek(0)
        begin = time.monotonic()
        on = (lambda: os.sched_setaffinity(0, processors)) if processors else None
        process = subprocess.Popen(words, stdin=given, stdout=subprocess.DEVNULL, stderr=subprocess.DEVNULL, preexec_fn=on)
        _, status, used = os.wait4(process.pid, 0)
        process.returncode = os.waitstatus_to_exitcode(status)
        self.look_at(words, process.returncode)
        self.clock = min(self.clock, time.monotonic() - begin)
        self.seconds = min(self.seconds, used.ru_utime + used.ru_stime)

    def run_timed(self, words, given):
        given.seek(0)
        timer = shutil.which("time")
        with tempfile.NamedTemporaryFile("r", encoding="utf-8") as told:
            under = [timer, "-q", "-f", "%M", "-o", told.name] if timer else []
            ran = subprocess.run([*under, *words], stdin=given, stdout=subprocess.PIPE, stderr=subprocess.DEVNULL, check=False)
            self.look_at(words, ran.returncode)
            self.text = ran.stdout
            self.memory = "%6.1f MB" % (int(told.read().split()[-1]) / 1024) if timer else ""

    def look_at(self, words, status):
        if status not in self.statuses:
            sys.exit("%s ended with status %d" % (" ".join(words), status))


def least_cut_peers(folder):
    """Compiles peers/least_cuts.cpp into a folder, with what is installed of them, and answers the program; None where there is no compiler."""
    compiler = shutil.which("g++") or shutil.which("clang++")
    if not compiler:
        print("no peers of least cuts: there is no C++ compiler")
        return None
    program = os.path.join(folder, "least_cuts")
    subprocess.run([compiler, "-O3", "-march=native", "-std=c++17", os.path.join(PEERS, "least_cuts.cpp"), "-o", program], check=True)
    return program


def peer_times(program, work, document):
    """What the peers that are installed print for a work on a document: their milliseconds and counts, by name."""
    lines = subprocess.run([program, work], input=document, stdout=subprocess.PIPE, check=True).stdout.decode().splitlines()
    return {name: (float(milliseconds), int(counted)) for name, milliseconds, counted in (line.rsplit(" ", 2) for line in lines)}
