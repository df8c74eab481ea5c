"""What docs/DEFINITIONS.md says of plans and of rows that lead back, tested over one group behind its scripts.

A check is a proposal that is entered, and decided, in a copy of the group.
"""

from document import FIRMWARE, Row
from journal import Accepted, Check, Submit, WouldBreak
from judging import target_with
from planning import MOST_IN_BATCH, plan_of
from reverting import rows_that_lead_back


def verdict_on(standing, application, rows):
    """What a check says of rows of an application, and the group behind it."""
    copy = standing.copied()
    copy.enter(Submit(application, tuple(rows)))
    return copy.enter(Check()).verdict, copy


def broken_plan_law(standing, application, firmware):
    """What a plan of a group breaks of what is true of it, or None."""
    plan = plan_of(standing, application, firmware)
    devices = [entity for entity in standing.entities if not entity.is_link]
    placed = [device for batch in plan.batches for device in batch.devices] + [device for device, _ in plan.stuck] + list(plan.same)
    if sorted(placed) != devices:
        return "not each device is in one batch, or stuck, or the same"

    def check(some):
        return verdict_on(standing, application, [Row(device, FIRMWARE, firmware) for device in some])[0]

    for device in devices:
        if (device in plan.same) != (standing.target[device][FIRMWARE] == firmware):
            return "%s is the same, or not" % standing.group.name_of(device)
    for device, cause in plan.stuck:
        if check([device]) != cause:
            return "%s is stuck, and not refused so alone" % standing.group.name_of(device)
    for number, batch in enumerate(plan.batches):
        if not 1 <= len(batch.devices) <= MOST_IN_BATCH or not isinstance(check(batch.devices), Accepted):
            return "batch %d would not be accepted" % (number + 1)
        later = {device for other in plan.batches[number + 1:] for device in other.devices} | {device for device, _ in plan.stuck}
        for device, cause in batch.left:
            if device not in later or not is_left_for(standing, batch.devices, device, cause):
                return "%s is left behind batch %d" % (standing.group.name_of(device), number + 1)
    return None


def is_left_for(standing, batch, device, cause):
    """Where a promise is named, it holds in the sure set, and fails without the whole batch and the device."""
    if cause is None:
        return len(batch) == MOST_IN_BATCH
    if not isinstance(cause, WouldBreak):
        return True
    sure, number = standing.sure(), cause.broken.promise
    return standing.book.holds(number, sure) and not standing.book.holds(number, sure - {device, *batch})


def broken_revert_law(standing, version):
    """What the rows that lead a group back to a version break of what is true of them, or None."""
    rows = rows_that_lead_back(standing, version)
    then = dict(standing.opening)
    for some in standing.overlays[:version]:
        then = target_with(then, some)
    if target_with(standing.target, rows) != then:
        return "the rows do not lead back to version %d" % version
    if len({(row.entity, row.variable) for row in rows}) < len(rows) or list(rows) != sorted(rows):
        return "a variable stands twice, or out of order"
    if any(standing.target[row.entity][row.variable] == row.value for row in rows):
        return "a row changes nothing"
    if rows:
        verdict, behind = verdict_on(standing, 0, rows)
        if isinstance(verdict, Accepted) and (behind.target != then or behind.version() != standing.version() + 1):
            return "behind the check the target is not that of version %d" % version
    return None
