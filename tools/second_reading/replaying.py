"""What `replay` makes of a document and its journals: each journal is gone through again, entry by entry."""

from report import report_lines, text_of_lines
from standing import Standing


class Replay:
    """The standing of each group behind its journal, or the first entry whose reply is not the one that is called for."""

    def __init__(self, document, journals):
        self.document = document
        self.standings = [Standing(number, group) for number, group in enumerate(document.groups)]
        self.illegal = None
        for number, (standing, entries) in enumerate(zip(self.standings, journals)):
            place = first_illegal(standing, entries)
            if place is not None:
                self.illegal = number, place
                return

    def journals(self):
        return [standing.entries for standing in self.standings]

    def report(self):
        """The report, which has no `read` lines."""
        return text_of_lines(report_lines(self.document, self.standings, ()))


def first_illegal(standing, entries):
    """Moves a standing over the entries; answers the number of the first with another reply, or None."""
    for number, (event, reply) in enumerate(entries, 1):
        if standing.reply_to(event) != reply:
            return number
        standing.enter(event)
    return None
