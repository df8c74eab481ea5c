"""`replay` of what the second reading makes of a document: of the journals as they are, and altered in several ways."""

import random

from altering import with_entries_altered, with_line_broken, with_reply_altered
from comparisons import difference_at, replay_wanted
from printing import replay_form
from reading import MOST_BYTES
from report import BAD_INPUT, ILLEGAL, illegal_text

FORMS = {("replay",): "text", ("replay", "--form", "json"): "json", ("replay", "--form", "replay"): "replay"}

WORDS = {ILLEGAL: "illegal", BAD_INPUT: "fault"}


def replay_difference(program, document, journals, seed, count=None):
    """The first text of these journals, altered or not, of which `replay` says something else than the second reading, or None."""
    text = replay_form(document, journals).encode()
    for words, form in FORMS.items():
        found = difference_at(program, words, text, replay_wanted(text, form))
        if found is not None:
            return found
    if len(text) > MOST_BYTES:
        return None
    for what, altered, wanted in altered_texts(document, journals, random.Random("replay %s" % seed)):
        if count is not None:
            count["replay %s: %s" % (what, WORDS.get(wanted[0], "read"))] += 1
        found = difference_at(program, ("replay",), altered, wanted)
        if found is not None:
            return found._replace(text=altered)
    return None


def altered_texts(document, journals, chance):
    """Texts with altered journals, each with what was done and with what `replay` should end."""
    found = with_reply_altered(chance, document, journals)
    if found is not None:
        altered, group, number = found
        yield "with a reply altered", replay_form(document, altered).encode(), illegal_text(document.groups[group], number)
    altered = with_entries_altered(chance, journals)
    if altered is not None:
        text = replay_form(document, altered).encode()
        yield "with entries altered", text, replay_wanted(text, "text")
    for _ in range(4):
        lines = with_line_broken(chance, replay_form(document, journals).split("\n")[:-1])
        if lines is not None:
            text = "".join(line + "\n" for line in lines).encode("latin-1")
            yield "with a line broken", text, replay_wanted(text, "text")
