"""Checks the second reading by itself, without the program: `python3 tools/second_reading/check_readings.py --cases 2000`.

The worked examples of docs/DEFINITIONS.md and docs/FORMATS.md come out as they stand there; a least cut over all sets is that of
a maximum flow; over random journals each reply, and what is kept at the end, is what looking back finds; and random plans and
reverts are what is said of them.
"""

import argparse
import random
import sys
import time

sys.dont_write_bytecode = True

from cases import wide_text  # noqa: E402
from checking_plans import broken_plan_law, broken_revert_law  # noqa: E402
from comparisons import Reading, wanted_of_words  # noqa: E402
from edges import NETWORK, text_of  # noqa: E402
from journal import entry_line  # noqa: E402
from looking_back import FEW_ENTRIES, first_difference  # noqa: E402
from promises import least_cut_of_flow, least_cut_of_sets, reached  # noqa: E402
from random_documents import random_document  # noqa: E402
from report import serial_text  # noqa: E402
from reverting import rows_that_lead_back  # noqa: E402
from words import job_of  # noqa: E402

# docs/DEFINITIONS.md: the journal J of the group Q.
JOURNAL = """\
1 submit up a1.firmware=2 : queued 1
2 check : receipt 1 accepted 1
3 send a1 : sent 1
4 deliver 1 : begun
5 finish a1 : done
6 report a1 : reported 1
7 hear 1 : taken
"""

# README.md: the report of examples/one_at_a_time.txt.
REPORT = """\
statesman report 1
group dc1
version 1
entries 4
receipt 1 up accepted 1
receipt 2 up refused broken t1 t2 cutoff need 10 has 0 side t1
target a1.firmware=2
unsettled a1
wire commands 0 reports 0 stale 0 old 0
promises 1 start 1 now 1
end
"""


# docs/FORMATS.md: `roll --to 2` of Q.
PLAN = """\
statesman roll 1
group dc1
batch 1 a1
left 1 a2 broken t1 t2 cutoff need 10 has 0 side t1
batch 2 a2
stuck t1 broken t1 t2 cutoff need 10 has 0 side t1
stuck t2 broken t1 t2 cutoff need 10 has 0 side t1 a1 a2
end
"""

# docs/FORMATS.md: `revert --to 1` of a script on Q; what is not said there is that of `serial`.
REVERT = """\
statesman revert 1
revert dc1 asked
statesman report 1
group dc1
version 3
entries 11
receipt 1 up accepted 1
receipt 2 up accepted 2
receipt 3 up accepted 3
target a1.firmware=2
unsettled a2
wire commands 1 reports 1 stale 0 old 0
promises 1 start 1 now 1
end
"""

# docs/FORMATS.md, "The grammar of words": what asks for something, and what asks for nothing.
GOOD_WORDS = (
    "serial", "--form=json -- serial", "serial --form json", "demo --pods 6", "roll --to 7", "--to=7 -- roll", "revert --to 0",
    "gen --seed 7",
)
BAD_WORDS = (
    "serial --pods 4", "serial serial", "serial --form=text --form text", "serial --form -", "serial --form=-", "gen --seed 007",
    "serial -- --form=text", "roll", "roll --to 2 --form text", "serial --to 2", "revert --to 4294967296", "roll --to=+2",
    "roll --to 2 --to 2", "serial --form", "check --seed 7",
)


def check_plan_examples():
    network, scripts = text_of(*NETWORK), ("app up", "propose dc1 a1.firmware=2", "await dc1")
    for text in (network, text_of(*NETWORK, "app up", "app te")):
        assert wanted_of_words(("roll", "--to", "2"), Reading(text)) == (0, PLAN), text
    same = "statesman roll 1\ngroup dc1\nsame t1\nsame t2\nsame a1\nsame a2\nend\n"
    assert wanted_of_words(("roll", "--to", "1"), Reading(network)) == (0, same)
    reading = Reading(text_of(*NETWORK, *scripts, "settle dc1 1", "propose dc1 a2.firmware=2"))
    assert wanted_of_words(("revert", "--to", "1"), reading) == (0, REVERT)
    after_journal = Reading(text_of(*NETWORK, *scripts, "settle dc1 1"))
    for text, version, line in ((network, 0, "same"), (network, 3, "noversion latest 0"), (after_journal.text, 2, "noversion latest 1"),
                                (after_journal.text, 1, "same"), (after_journal.text, 0, "asked")):
        _, told = wanted_of_words(("revert", "--to", str(version)), Reading(text))
        assert told.startswith("statesman revert 1\nrevert dc1 %s\nstatesman report 1\n" % line), told
    row, = rows_that_lead_back(after_journal.run.standings[0], 0)
    assert after_journal.document.groups[0].assignment(row) == "a1.firmware=1"
    assert job_of(()) is None and not any(job_of(words.split(" ")) for words in BAD_WORDS)
    assert all(job_of(words.split(" ")) for words in GOOD_WORDS)
    assert job_of(("gen", "--seed", "7")) == ("gen", {"pods": 4, "seed": 7})


def check_plans(count, seconds):
    begin, plans, reverts = time.monotonic(), 0, 0
    for seed in range(count):
        if time.monotonic() - begin > seconds:
            break
        lines = random_document(random.Random("plans %d" % seed))
        text = wide_text(seed) if seed % 5 == 0 else "".join(line + "\n" for line in lines).encode()
        reading = Reading(text)
        for standing in reading.run.standings if reading.run is not None and reading.run.full_group is None else ():
            for firmware in (1, 2, 3):
                found = broken_plan_law(standing, len(reading.document.applications), firmware)
                assert found is None, (seed, standing.group.name, firmware, found)
                plans += 1
            for version in range(standing.version() + 1):
                found = broken_revert_law(standing, version)
                assert found is None, (seed, standing.group.name, version, found)
                reverts += 1
    print("tried %d plans and %d reverts in %.1f seconds" % (plans, reverts, time.monotonic() - begin))


def check_examples():
    reading = Reading(text_of(*NETWORK, "app up", "propose dc1 a1.firmware=2", "await dc1", "settle dc1 2"))
    standing = reading.run.standings[0]
    lines = [entry_line(reading.document, standing.group, number, entry) + "\n"
             for number, entry in enumerate(standing.entries, 1)]
    assert "".join(lines) == JOURNAL, lines
    reading = Reading(text_of(*NETWORK, "app up", "propose dc1 a1.firmware=2", "propose dc1 a2.firmware=2"))
    assert serial_text(reading.run) == (0, REPORT), serial_text(reading.run)
    reading = Reading(text_of(*NETWORK, "drop dc1 command 1", "app up", "propose dc1 a1.firmware=2", "await dc1", "settle dc1 2"))
    _, text = serial_text(reading.run)
    assert "\nentries 11\n" in text, text
    assert text.endswith("wire commands 2 reports 2 stale 0 old 0\npromises 1 start 1 now 1\nend\n"), text


def check_cuts(count):
    for seed in range(count):
        chance = random.Random(seed)
        devices = chance.randint(2, 9)
        edges = [(*chance.sample(range(devices), 2), chance.randint(1, 20)) for _ in range(chance.randint(0, 14))]
        by_sets, by_flow = least_cut_of_sets(devices, edges, 0, 1), least_cut_of_flow(devices, edges, 0, 1)
        assert by_sets == by_flow, (seed, by_sets, by_flow)
        value, side = by_sets
        assert value == sum(capacity for a, b, capacity in edges if (a in side) != (b in side)), seed
        assert (value == 0) == (1 not in reached(edges, 0)), seed


def check_journals(count, seconds):
    begin, entries, tried = time.monotonic(), 0, 0
    for seed in range(count):
        if time.monotonic() - begin > seconds:
            break
        text = "".join(line + "\n" for line in random_document(random.Random("looking back %d" % seed)))
        reading = Reading(text.encode())
        assert reading.fault is None, (seed, reading.fault)
        for standing in reading.run.standings:
            found = first_difference(standing)
            assert found is None, (seed, standing.group.name, found)
            if len(standing.entries) <= FEW_ENTRIES:
                entries += len(standing.entries)
        tried += 1
    print("looked back over %d documents with %d entries in %.1f seconds" % (tried, entries, time.monotonic() - begin))


def main():
    parser = argparse.ArgumentParser(prog="check_readings", description=__doc__)
    parser.add_argument("--cases", type=int, default=1000, help="how many documents and graphs (1000)")
    parser.add_argument("--seconds", type=float, default=60, help="after so many seconds no new document begins (60)")
    options = parser.parse_args()
    check_examples()
    check_plan_examples()
    check_cuts(options.cases)
    check_journals(options.cases, options.seconds)
    check_plans(options.cases, options.seconds)
    print("the second reading agrees with the documents' examples and with itself")


if __name__ == "__main__":
    main()
