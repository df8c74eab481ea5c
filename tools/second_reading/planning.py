"""What `roll` plans for each group, and the text of it (docs/FORMATS.md, "What `roll` does")."""

from typing import NamedTuple

from document import FIRMWARE, Row
from journal import Accepted, cause_text
from judging import judge
from report import text_of_lines, unless_full

MOST_IN_BATCH = 16


class Batch(NamedTuple):
    """What a pass took, and what it left, each with the cause of its refusal or, where the batch was full, with None."""

    devices: tuple
    left: tuple


class Plan(NamedTuple):
    """The batches, the stuck devices, each with the cause of its refusal, and those that are the same."""

    batches: tuple
    stuck: tuple
    same: tuple


def refusal(standing, application, devices, firmware):
    """For what a check would refuse an application's proposal of a firmware for each of these devices, or None."""
    verdict = judge(standing, application, tuple(Row(device, FIRMWARE, firmware) for device in devices))
    return None if isinstance(verdict, Accepted) else verdict


def pass_over(devices, refusal_of):
    """The batch of a pass over devices, and what it left and what is stuck, each with the cause."""
    batch, left, stuck = [], [], []
    for device in devices:
        if len(batch) == MOST_IN_BATCH:
            left.append((device, None))
            continue
        cause = refusal_of(batch + [device])
        if cause is None:
            batch.append(device)
        elif batch:
            left.append((device, cause))
        else:
            stuck.append((device, cause))
    return Batch(tuple(batch), tuple(left)), stuck


def plan_of(standing, application, firmware):
    """The plan of a group as it stands, for an application by its number."""
    devices = [entity for entity in standing.entities if not entity.is_link]
    same = [device for device in devices if standing.target[device][FIRMWARE] == firmware]
    waiting = [device for device in devices if device not in same]
    batches, stuck = [], []
    while waiting:
        batch, refused = pass_over(waiting, lambda listed: refusal(standing, application, listed, firmware))
        stuck += refused
        if batch.devices:
            batches.append(batch)
        waiting = [device for device, _ in batch.left]
    return Plan(tuple(batches), tuple(stuck), tuple(same))


def roll_text(run, firmware):
    """The plans behind a run that met no full journal, else the line that names the full group."""
    return unless_full(run, lambda: text_of_lines(roll_lines(run, firmware)))


def roll_lines(run, firmware):
    yield "statesman roll 1"
    # The plan is for an application that the document does not have.
    planner = len(run.document.applications)
    for standing in run.standings:
        yield "group %s" % standing.group.name
        yield from plan_lines(run.document, standing.group, plan_of(standing, planner, firmware))
    yield "end"


def plan_lines(document, group, plan):
    def device_and_cause(device, cause):
        told = "full" if cause is None else cause_text(group, document.applications, cause)
        return "%s %s" % (group.name_of(device), told)

    for number, batch in enumerate(plan.batches, 1):
        yield "batch %d %s" % (number, " ".join(group.name_of(device) for device in batch.devices))
        for device, cause in batch.left:
            yield "left %d %s" % (number, device_and_cause(device, cause))
    for device, cause in plan.stuck:
        yield "stuck %s" % device_and_cause(device, cause)
    for device in plan.same:
        yield "same %s" % group.name_of(device)
