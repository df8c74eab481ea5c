"""Prints a line for each small document at a limit and then for each case: a checksum of all that the second reading calls for.

That is of the document, by the words with which it is tried too, and of the journals of its script order, altered in several ways.

`planted_misreadings.py` runs it.
"""

import hashlib
import random
import sys

sys.dont_write_bytecode = True

from asking import words_for  # noqa: E402
from cases import case_text, has_wide, wide_text  # noqa: E402
from comparisons import COMPARISONS, Reading, wanted_of_words  # noqa: E402
from edges import NETWORK, edge_documents, text_of  # noqa: E402
from plan_edges import WORD_EDGES, plan_edges  # noqa: E402
from trying_replays import altered_texts  # noqa: E402


FEW_BYTES = 2500


def small_edges():
    """Triples of a name, a text, and the lists of words that are its own, or None."""
    small = [(name, text, None) for name, text in edge_documents() if len(text) <= FEW_BYTES]
    return small + list(plan_edges()) + [("words", text_of(*NETWORK), WORD_EDGES)]


def endings_of(name, text, lists):
    reading = Reading(text)
    lists = lists or [words_for(command, name, reading) for command in ("roll", "revert", "words")]
    endings = [wanted_of_words(words, reading) for words in (*COMPARISONS, *lists)]
    if reading.run is not None and reading.run.full_group is None:
        journals = [standing.entries for standing in reading.run.standings]
        endings += altered_texts(reading.document, journals, random.Random("endings %s" % name))
    return endings


def endings_of_wide(name, text):
    reading = Reading(text)
    return [wanted_of_words(words_for(command, name, reading), reading) for command in ("roll", "revert")]


def tell(endings):
    print(hashlib.sha256(repr(endings).encode()).hexdigest(), flush=True)


def main():
    for name, text, lists in small_edges():
        tell(endings_of(name, text, lists))
    for seed in range(1, int(sys.argv[1]) + 1):
        endings = endings_of("seed %d" % seed, case_text(seed), None)
        tell(endings + endings_of_wide("wide %d" % seed, wide_text(seed)) if has_wide(seed) else endings)


if __name__ == "__main__":
    main()
