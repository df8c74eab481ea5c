#!/usr/bin/env python3
"""Measures the whole program: `tools/measure.py PROGRAM [WORK..]`. Each figure of docs/PERFORMANCE.md that is of a whole call comes of one of these works:

  promises   what the start of a group's promises takes, and a proposal that is decided and settled, as differences of two runs; beside it LEMON's
             GomoryHu where it is installed
  reading    `check` on documents of a million bytes and of half of that
  scripts    `serial` and `run` on one, two and four processors
  full       a journal that gets full, of 200,000 entries, and one that nearly does
  numbers    `gen` and `demo`, which read nothing
  journals   `serial --form replay`, and `replay` of what it prints
  pages      what the player takes for a page, with --player PLAYER, and `replay` of the same text

Without a work all are done. Each time is the least of so many runs: that of the processor, with the program's start, and where it is said by the clock.
Memory is told where GNU time is installed.
"""

import argparse
import os
import subprocess
import sys
import tempfile

import measuring

TOOLS = measuring.TOOLS
EXAMPLE = os.path.join(os.path.dirname(TOOLS), "examples/two_path.txt")
PROPOSALS = 200
# Those that a run of a program may end with here: 6 is that of a full journal.
STATUSES = (0, 6)
# The words of many_rounds.py for each page: pods, groups, rounds.
PAGES = ("4 1 340", "4 3 320", "10 1 340", "10 1 340 mixed", "10 3 300")


def main():
    works = {
        "promises": promises,
        "reading": reading,
        "scripts": scripts,
        "full": full,
        "numbers": numbers,
        "journals": journals,
        "pages": pages,
    }
    parser = argparse.ArgumentParser(prog="measure", description=__doc__, formatter_class=argparse.RawDescriptionHelpFormatter)
    parser.add_argument("--times", type=int, default=7, help="how often each is run (7)")
    parser.add_argument("--player", help="the player's program")
    parser.add_argument("program")
    parser.add_argument("works", nargs="*", metavar="WORK")
    options = parser.parse_args()
    for work in options.works:
        if work not in works:
            parser.error("no work is called %s" % work)
    for work in options.works or works:
        print(work)
        works[work](options)
    return 0


def least(options, words, document=b"", processors=None, program=None):
    """So many runs of the program with these words."""
    return measuring.Least(options.times, [program or options.program, *words], document, processors, STATUSES)


def row(name, ran):
    print("  %-62s %8.1f ms %8.1f ms by the clock %s" % (name, ran.seconds * 1e3, ran.clock * 1e3, ran.memory), flush=True)


def printed(tool, *words, document=b""):
    """What a tool of this folder prints."""
    return subprocess.run([sys.executable, os.path.join(TOOLS, tool), *words], input=document, stdout=subprocess.PIPE, check=True).stdout


def promises(options):
    with tempfile.TemporaryDirectory() as folder:
        peers = measuring.least_cut_peers(folder)
        for percent in (50, 90, 100):
            for group, document in measuring.documents(percent).items():
                bare = b"".join(line for line in document.splitlines(True) if not line.startswith(b"promise "))
                whole, without = least(options, ["serial"], document), least(options, ["serial"], bare)
                proposed = least(options, ["serial"], printed("propose_each.py", str(PROPOSALS), document=document))
                # of a receipt the report has a line, `receipt dc1 TICKET APP refused ..`
                refused = sum(b" refused " in line for line in proposed.text.splitlines())
                row("%s, %d percent" % (group, percent), whole)
                row("the same with %d proposals, %d refused" % (PROPOSALS, refused), proposed)
                start = (whole.seconds - without.seconds) * 1e3
                print("  so the promises take %.1f ms, and a proposal %.0f us" % (start, (proposed.seconds - whole.seconds) * 1e6 / PROPOSALS))
                for peer, (milliseconds, _) in measuring.peer_times(peers, "tree", document).items() if peers else ():
                    print("  %s: %.1f ms, so ours is %.2f times that" % (peer, milliseconds, start / milliseconds), flush=True)


def reading(options):
    for groups, devices, links, most in ((15, 443, 965, 999_999), (13, 472, 445, 500_000)):
        document = large_document(groups, devices, links, most)
        row("check, %d bytes, %d links" % (len(document), groups * links), least(options, ["check"], document))


def large_document(groups, devices, links, most):
    """So many groups of so many devices and links, one to a line, and comments up to so many bytes."""
    lines = ["statesman 1"]
    for group in range(groups):
        lines.append("group group_%d" % group)
        lines += ["device switch_%d switch" % number for number in range(devices)]
        for number in range(links):
            ends = number % devices, (number + 1 + number // devices) % devices
            lines.append("link the_link_number_%d switch_%d switch_%d %d" % (number, *ends, 1000 + number))
    text = measuring.text_of(lines)
    comment = b"# words for whoever reads the document, which mean nothing\n"
    return text + comment * max(0, (most - len(text)) // len(comment))


def scripts(options):
    tree = least(options, ["gen", "--pods", "10"]).text
    for name, document in (("fat tree", tree), ("many applications", printed("many_applications.py"))):
        for count in (1, 2, 4):
            processors = set(sorted(os.sched_getaffinity(0))[:count])
            for word in ("serial", "run"):
                row("%s, %s, %d processors" % (name, word, len(processors)), least(options, [word], document, processors))


def full(options):
    with open(EXAMPLE, encoding="utf-8") as text:
        lines = [line for line in text.read().splitlines() if not line.startswith(("#", "app", "propose", "await", "settle"))]
    script = ["app up", "propose dc1 a1.firmware=2", "await dc1", "fail dc1 a1 0", "poll dc1 a1"]
    for settles in (782, 780):
        document = measuring.text_of([*lines, *script, *["settle dc1 64"] * settles])
        for words in (["serial"], ["serial", "--form", "replay"]):
            ran = least(options, words, document)
            row("%s, %d settles, %d bytes written" % (" ".join(words), settles, len(ran.text)), ran)


def numbers(options):
    document = least(options, ["gen", "--pods", "10"])
    row("gen --pods 10, %d bytes" % len(document.text), document)
    row("demo --pods 10", least(options, ["demo", "--pods", "10"]))
    for word in ("serial", "check"):
        row(word + " of what gen prints", least(options, [word], document.text))


def journals(options):
    for apps in (20, 12):
        document = measuring.text_of(proposing(apps))
        for words in (["check"], ["serial"], ["serial", "--form", "replay"]):
            ran = least(options, words, document)
            row("%s, %d applications, %d bytes read" % (" ".join(words), apps, len(document)), ran)
        for words in (["replay"], ["replay", "--form", "json"]):
            row("%s, %d bytes read" % (" ".join(words), len(ran.text)), least(options, words, ran.text))


def proposing(apps):
    """Two paths, and so many applications of 341 upgrades each, with another firmware each time."""
    with open(EXAMPLE, encoding="utf-8") as text:
        lines = [line for line in text.read().splitlines() if line.startswith(("statesman", "group", "device", "link", "promise"))]
    for app in range(apps):
        lines.append("app a%d" % app)
        for number in range(341):
            lines += ["propose dc1 a1.firmware=%d" % (2 + app * 341 + number), "await dc1", "settle dc1 1"]
    return lines


def pages(options):
    if not options.player:
        print("  --player names no program")
        return
    documents = {"gen --pods 10": least(options, ["gen", "--pods", "10"]).text}
    documents.update({words: printed("many_rounds.py", options.program, *words.split()) for words in PAGES})
    for name, document in documents.items():
        run = least(options, ["serial", "--form", "replay"], document).text
        page = least(options, [], run, program=options.player)
        row("%s, %d bytes, a page of %d" % (name, len(run), len(page.text)), page)
        row("  replay of the same", least(options, ["replay"], run))


if __name__ == "__main__":
    sys.exit(main())
