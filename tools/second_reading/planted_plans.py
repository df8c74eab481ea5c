"""Misreadings of what `roll` and `revert` do, and of words, for `planted_misreadings.py`, which says what each has."""

# The loops that print a plan, and the place where a pass has been made.
BATCH_LINES = """\
    for number, batch in enumerate(plan.batches, 1):
        yield "batch %d %s" % (number, " ".join(group.name_of(device) for device in batch.devices))
        for device, cause in batch.left:
            yield "left %d %s" % (number, device_and_cause(device, cause))
"""
STUCK_LINES = """\
    for device, cause in plan.stuck:
        yield "stuck %s" % device_and_cause(device, cause)
"""
SAME_LINES = """\
    for device in plan.same:
        yield "same %s" % group.name_of(device)
"""
LEFT_LINE = """\
        for device, cause in batch.left:
            yield "left %d %s" % (number, device_and_cause(device, cause))
"""
PASS_MADE = "            batches.append(batch)\n"
PROPOSED = PASS_MADE + """\
            standing = standing.copied()
            standing.enter(__import__("journal").Submit(application, tuple(Row(device, FIRMWARE, firmware) for device in batch.devices)))
            standing.enter(__import__("journal").Check())
"""
SETTLED = """\
            for device in batch.devices:
                standing.observed[device] = standing.observed[device]._replace(
                    values=standing.target[device], fence=standing.stamps[device], is_busy=False)
"""
JUDGED_ON = "    devices = [entity for entity in standing.entities if not entity.is_link]\n"
FULL = "if len(batch) == MOST_IN_BATCH:"
ASKED = """\
        standing.enter(Submit(0, rows))
        standing.enter(Check())
"""

PLAN_MISREADINGS = (
    ("planning.py", "MOST_IN_BATCH = 16", "MOST_IN_BATCH = 1", "a batch has one device"),
    ("planning.py", "MOST_IN_BATCH = 16", "MOST_IN_BATCH = 15", "a batch is full at 15"),
    ("planning.py", "MOST_IN_BATCH = 16", "MOST_IN_BATCH = 17", "a batch is full at 17"),
    ("planning.py", FULL, "if len(batch) == MOST_IN_BATCH and refusal_of([device]) is None:", "what is refused is not left as full"),
    ("planning.py", FULL, "if len(batch) == MOST_IN_BATCH or left:", "a batch ends at the first device that is left"),
    ("planning.py", "waiting = [device for device, _ in batch.left]", "waiting = []", "what a pass left is forgotten"),
    ("planning.py", "waiting = [device for device, _ in batch.left]",
     "waiting = [device for device, cause in batch.left if cause is not None]", "what a full batch left is forgotten"),
    ("planning.py", "waiting = [device for device, _ in batch.left]",
     "waiting = [device for device, cause in batch.left if cause is None]", "what was left for a cause is stuck, and not told"),
    ("planning.py", "waiting = [device for device, _ in batch.left]", "waiting = [device for device, _ in reversed(batch.left)]",
     "a pass goes over what is left from behind"),
    ("planning.py", "        elif batch:\n", "        elif batch and refusal_of([device]) is None:\n", "what is refused alone is stuck in any pass"),
    ("planning.py", "left.append((device, cause))", "left.append((device, refusal_of([device]) or cause))",
     "the cause is that of the device alone where it has one"),
    ("planning.py", "refusal_of(batch + [device])", "refusal_of([device])", "a device is judged without its batch"),
    ("planning.py", "standing.target[device][FIRMWARE] == firmware", "standing.observed[device].values[FIRMWARE] == firmware",
     "the same by the observed value"),
    ("planning.py", "standing.target[device][FIRMWARE] == firmware", "standing.agents[device].values[FIRMWARE] == firmware",
     "the same by the value in the network"),
    ("planning.py", "standing.target[device][FIRMWARE] == firmware",
     "standing.target[device][FIRMWARE] == firmware and standing.is_settled(device)", "the same has to be settled"),
    ("planning.py", "standing.target[device][FIRMWARE] == firmware", "standing.target[device][FIRMWARE] >= firmware",
     "a later firmware is the same"),
    ("planning.py", "planner = len(run.document.applications)", "planner = 0", "the plan is for the first application"),
    ("planning.py", JUDGED_ON, "    standing = standing.copied()\n    standing.holders = {}\n" + JUDGED_ON, "locks do not bar the planner"),
    ("planning.py", PASS_MADE, PROPOSED, "a batch is asked for before the next pass"),
    ("planning.py", PASS_MADE, PROPOSED + SETTLED, "a batch counts as done for the next pass"),
    ("planning.py", PASS_MADE, PASS_MADE + "            standing = standing.copied()\n" + SETTLED, "a batch is settled for the next pass"),
    ("planning.py", BATCH_LINES + STUCK_LINES, STUCK_LINES + BATCH_LINES, "stuck lines stand before batches"),
    ("planning.py", STUCK_LINES + SAME_LINES, SAME_LINES + STUCK_LINES, "same lines stand before stuck ones"),
    ("planning.py", LEFT_LINE, "    for number, batch in enumerate(plan.batches, 1):\n" + LEFT_LINE, "left lines stand behind all batches"),
    ("planning.py", "for number, batch in enumerate(plan.batches, 1):",
     "for batch, number in zip(plan.batches, vars(document).setdefault(\"numbers\", iter(range(1, 9999)))):",
     "batches are numbered in all groups together"),
    ("planning.py", "    for device in plan.same:\n", "    for device in sorted(plan.same, key=group.name_of):\n", "the same stand in the order of names"),
    ("reverting.py", "if value != at_version:", "if value != at_version and any(row[:2] == (entity, variable) for row in standing.overlays[-1]):",
     "the rows of the last version alone lead back"),
    ("reverting.py", "if value != at_version:",
     "if value != at_version and any(row[:2] == (entity, variable) for row in standing.overlays[version]):",
     "the rows of the version behind alone lead back"),
    ("reverting.py", "if value != at_version:", "if any(row[:2] == (entity, variable) for some in standing.overlays[version:] for row in some):",
     "rows that change nothing lead back too"),
    ("reverting.py", "standing.value_at(version, entity, variable)", "standing.value_at(max(version - 1, 0), entity, variable)",
     "it goes back to before a version"),
    ("reverting.py", "standing.value_at(version, entity, variable)", "standing.opening[entity][variable]", "it always goes back to the opening"),
    ("reverting.py", "enumerate(standing.target[entity])", "enumerate(standing.observed[entity].values)", "the observed values lead back"),
    ("reverting.py", "return tuple(rows)", "return tuple(reversed(rows))", "the rows stand from behind"),
    ("reverting.py", "for entity in standing.entities:", "for entity in standing.entities[:len(standing.group.devices)]:", "links do not go back"),
    ("reverting.py", "for entity in standing.entities:", "for entity in sorted(standing.entities, key=lambda entity: not entity.is_link):",
     "links go back first"),
    ("reverting.py", "in enumerate(standing.target[entity])", "in reversed(list(enumerate(standing.target[entity])))",
     "the last variable of an entity goes back first"),
    ("reverting.py", ASKED, ASKED.replace("        standing.enter(Check())\n", ""), "a revert is not checked"),
    ("reverting.py", ASKED, "        standing.overlays.append(rows)\n"
     "        standing.target = __import__(\"judging\").target_with(standing.target, rows)\n", "a revert is done and not asked for"),
    ("reverting.py", "Submit(0, rows)", "Submit(standing.proposals[-1][0], rows)", "the last that proposed asks for a revert"),
    ("reverting.py", "Submit(0, rows)", "Submit(len(self.logs) - 1, rows)", "the last application asks for a revert"),
    ("reverting.py", "if version > standing.version():", "if False:", "a version above the latest is the latest"),
    ("reverting.py", "if version > standing.version():", "if version >= standing.version():", "the latest version is none"),
    ("reverting.py", "if version > standing.version():", "if version > max(each.version() for each in self.standings):",
     "the latest is that of all groups"),
    ("reverting.py", "if len(rows) > MOST_ROWS:", "if len({row.entity for row in rows}) > MOST_ROWS:", "too many entities"),
    ("reverting.py", "return \"toomany %d\" % len(rows)", "return \"toomany %d\" % len({row.entity for row in rows})",
     "of too many rows the entities are told"),
    ("reverting.py", "if len(rows) > MOST_ROWS:", "if len(rows) >= MOST_ROWS:", "16 rows are too many"),
    ("reverting.py", "        if len(rows) > MOST_ROWS:\n", "        if False:\n", "more than 16 rows are asked for"),
    ("reverting.py", "report_lines(reverted.document, reverted.standings, reverted.logs)", "report_lines(run.document, run.standings, run.logs)",
     "the report is of before the revert"),
    ("reverting.py", "reverted.standings, reverted.logs)", "reverted.standings, ())", "the report of a revert has no reads"),
    ("words.py", "ABSENT = {\"form\"", "ABSENT = {\"to\": \"0\", \"form\"", "a number may be absent"),
    ("words.py", "len(given) < len(named)", "False", "an option may stand twice"),
    ("words.py", "\"roll\": (\"to\",)", "\"roll\": (\"to\", \"form\")", "a form goes with a plan"),
    ("words.py", "\"serial\": (\"form\",)", "\"serial\": (\"form\", \"to\")", "a number goes with serial"),
    ("words.py", "return parts + [(None, each) for each in rest]", "pass", "options may stand behind --"),
    ("texts.py", "rb\"(0|[1-9][0-9]{0,9})\\Z\"", "rb\"([0-9]{1,10})\\Z\"", "a number may have leading zeros"),
    ("texts.py", "number <= GREATEST_NUMBER else None", "number <= 9999999999 else None", "a number may be greater"),
)
