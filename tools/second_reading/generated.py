"""The generated document, and its summary (docs/FORMATS.md, "The generated document" and "Counts")."""

from journal import Accepted
from reading import read_document
from report import OK, promise_lines
from scripts import ScriptRun

# Of more pods the summary takes long here.
FEW_PODS = 6


def generated_text(pods, seed):
    """The document of a number of pods and a seed."""
    return OK, "".join(line + "\n" for line in generated_lines(pods, seed))


def generated_lines(pods, seed):
    half = pods // 2
    tors, upper, core = [], {}, ["c%d" % number for number in range(half * half)]
    yield "statesman 1"
    yield "group dc1"
    for pod in range(pods):
        of_pod = ["p%de%d" % (pod, number) for number in range(half)]
        upper[pod] = ["p%da%d" % (pod, number) for number in range(half)]
        tors += of_pod
        yield from ("device %s tor" % name for name in of_pod)
        yield from ("device %s switch" % name for name in upper[pod])
    yield from ("device %s switch" % name for name in core)
    for pod in range(pods):
        for tor in range(half):
            yield from ("link p%de%da%d p%de%d %s 10" % (pod, tor, number, pod, tor, upper[pod][number]) for number in range(half))
        for number in range(half):
            for place in range(half):
                switch = number * half + place
                yield "link p%da%dc%d %s %s 10" % (pod, number, switch, upper[pod][number], core[switch])
    for place, first in enumerate(tors):
        yield from ("promise %s %s 50" % (first, second) for second in tors[place + 1:])
    yield from script_lines(pods, seed, upper)


def script_lines(pods, seed, upper):
    firmware = 2 + seed % 1000
    yield "app up"
    for number in range(pods // 2):
        yield "propose dc1 " + " ".join("%s.firmware=%d" % (upper[pod][number], firmware) for pod in range(pods))
        yield "await dc1"
        yield "settle dc1 2"
    yield "propose dc1 " + " ".join("%s.firmware=%d" % (name, firmware + 1) for name in upper[seed % pods])
    yield "await dc1"
    yield "app te"
    yield from ("lock dc1 c0 high", "read dc1 p0a0.firmware", "unlock dc1 c0 high")


def summary_text(pods, seed):
    """What `demo` writes."""
    document = read_document(generated_text(pods, seed)[1].encode())
    run = ScriptRun(document)
    group, standing = document.groups[0], run.standings[0]
    accepted = sum(isinstance(verdict, Accepted) for verdict in standing.verdicts)
    _, _, counts = next(promise_lines(standing)).partition(" start ")
    lines = (
        "demo pods %d seed %d" % (pods, seed),
        "devices %d links %d promises %d" % (len(group.devices), len(group.links), len(group.promises)),
        "entries %d version %d accepted %d refused %d" % (
            len(standing.entries), standing.version(), accepted, len(standing.verdicts) - accepted),
        "commands %d reports %d unsettled %d" % (
            len(standing.commands), len(standing.reports), sum(not standing.is_settled(entity) for entity in standing.entities)),
        "start " + counts,
        "end",
    )
    return OK, "".join(line + "\n" for line in lines)


def generated_rows():
    """The words of `gen` and `demo`, each with what it should end with."""
    for pods in (4, 6, 8, 10):
        for seed in (0, 1, 7, 999, 1000, 4294967295):
            words = ("--pods", str(pods), "--seed=%d" % seed)
            yield ("gen",) + words, generated_text(pods, seed)
            if pods <= FEW_PODS and seed in (0, 7):
                yield ("demo",) + words, summary_text(pods, seed)
    yield ("gen",), generated_text(4, 0)
    yield ("demo",), summary_text(4, 0)
