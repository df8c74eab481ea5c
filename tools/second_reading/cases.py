"""The cases by chance: each is made from its seed alone, and every third has one line broken, or two.

A crowd is a document for `run`, and a wide one for `roll` and `revert`, without a broken line.
"""

import random

from broken_lines import broken, bytes_of
from random_documents import crowded_document, random_document, wide_document


def case_text(seed):
    """The text of a case."""
    chance = random.Random(seed)
    lines = random_document(chance)
    if seed % 3 == 0:
        lines = broken(chance, lines)
    return bytes_of(chance, lines)


def crowd_text(seed):
    """The text of a document with many applications, for `run`."""
    chance = random.Random("crowd %d" % seed)
    return bytes_of(chance, crowded_document(chance))


def has_wide(seed):
    """Whether a case has a wide document beside it."""
    return seed % 5 == 0


def wide_text(seed):
    """The text of a document with many devices, for `roll` and `revert`."""
    chance = random.Random("wide %d" % seed)
    return bytes_of(chance, wide_document(chance))
