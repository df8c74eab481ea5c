"""What `revert` asks of each group behind the scripts, and the text of it (docs/FORMATS.md, "What `revert` does")."""

from document import Row
from journal import Check, Submit
from reading import MOST_ROWS
from report import report_lines, text_of_lines, unless_full
from standing import JournalFull


def rows_that_lead_back(standing, version):
    """One for each variable whose target differs from its value at a version, with that value."""
    rows = []
    for entity in standing.entities:
        for variable, value in enumerate(standing.target[entity]):
            at_version = standing.value_at(version, entity, variable)
            if value != at_version:
                rows.append(Row(entity, variable, at_version))
    return tuple(rows)


class Reverted:
    """The groups behind a run that was asked to go back to a version: a line for each, and its standing."""

    def __init__(self, run, version):
        self.document = run.document
        self.standings = [standing.copied() for standing in run.standings]
        self.logs = run.logs
        self.lines = []
        self.full_group = run.full_group
        if self.full_group is not None:
            return
        try:
            for standing in self.standings:
                self.lines.append("revert %s %s" % (standing.group.name, self.revert(standing, version)))
        except JournalFull as full:
            self.full_group = full.group

    def revert(self, standing, version):
        """Asks one group, where there is something to be asked, and tells what came of it."""
        if version > standing.version():
            return "noversion latest %d" % standing.version()
        rows = rows_that_lead_back(standing, version)
        if not rows:
            return "same"
        if len(rows) > MOST_ROWS:
            return "toomany %d" % len(rows)
        standing.enter(Submit(0, rows))
        standing.enter(Check())
        return "asked"


def revert_text(run, version):
    """The lines of the groups and the report, or the line that names the group whose journal was met full."""
    reverted = Reverted(run, version)
    return unless_full(reverted, lambda: text_of_lines(
        ["statesman revert 1"] + reverted.lines + report_lines(reverted.document, reverted.standings, reverted.logs)))
