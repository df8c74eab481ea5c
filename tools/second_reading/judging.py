"""Lacks and verdicts, as the section "Judging and replying" of docs/DEFINITIONS.md has them."""

from document import CONFIG, FIRMWARE, IFACE, POWER, ROUTING, Entity
from journal import Accepted, IsLocked, LacksLevel, LacksPower, WouldBreak

LEVEL_NEEDED = {POWER: 1, FIRMWARE: 2, CONFIG: 3, ROUTING: 4}
LEVEL_OF_ENDS = 4
LEVEL_OF_LINK = 1


def target_with(target, rows):
    """A target with each row's variable set, and all else as it was."""
    changed = {entity: list(values) for entity, values in target.items()}
    for row in rows:
        changed[row.entity][row.variable] = row.value
    return {entity: tuple(values) for entity, values in changed.items()}


def altered(target, rows):
    """The entities one of whose values the rows would change in the target."""
    after = target_with(target, rows)
    return frozenset(row.entity for row in rows if after[row.entity] != target[row.entity])


def levels_needed(group, row):
    """The entities and the levels that a row needs of them, in order."""
    entity = row.entity
    if not entity.is_link:
        return [(entity, LEVEL_NEEDED[row.variable])]
    link = group.links[entity.number]
    needed = [(Entity(False, link.first), LEVEL_OF_ENDS), (Entity(False, link.second), LEVEL_OF_ENDS)]
    if row.variable == IFACE:
        needed.append((entity, LEVEL_OF_LINK))
    return needed


def lack_of(group, observed, target, row):
    """Why a row can't be set where the target (with the rows that are asked for) is this one, or None."""
    for entity, needs in levels_needed(group, row):
        has = observed[entity].level
        if has < needs:
            return LacksLevel(row, entity, has, needs)
    if not row.entity.is_link and row.variable != POWER and target[row.entity][POWER] == 0:
        return LacksPower(row)
    return None


def judge(standing, application, rows):
    """The verdict on rows of an application: the first thing that stands against them, or their acceptance."""
    with_rows = target_with(standing.target, rows)
    for row in rows:
        lack = lack_of(standing.group, standing.observed, with_rows, row)
        if lack is not None:
            return lack
    for row in rows:
        holder, priority = standing.effective_holder(row.entity)
        if holder is not None and holder != application:
            return IsLocked(row.entity, holder, priority)
    before = standing.sure()
    broken = standing.book.first_broken(before, before - altered(standing.target, rows))
    if broken is not None:
        return WouldBreak(broken)
    return Accepted(standing.version() + 1)
