"""The up graph of a set of entities, least cuts with their least sides, and what a promise asks.

Networks here are small, so a least cut is looked for among all cuts, as its definition says. Above `FEW_DEVICES` devices a
plain maximum flow is taken in its place; `check_readings.py` compares the two.
"""

from collections import deque
from typing import NamedTuple

from document import Entity

FEW_DEVICES = 9


class Break(NamedTuple):
    """A promise that holds with one set up and not with another."""

    promise: int
    is_cut_off: bool
    need: int
    has: int
    side: tuple


class PromiseBook:
    """What the promises of a group need, and whether they hold with a set of entities up."""

    def __init__(self, group):
        self.group = group
        self.known = {}
        everything = frozenset(group.entities())
        self.needs = []
        for number, promise in enumerate(group.promises):
            least, _ = self.least_cut(number, everything)
            self.needs.append(-(-promise.percentage * least // 100))

    def least_cut(self, number, up):
        """The least value of a cut of a promise's pair with `up` up, and its least side."""
        links = up_links(self.group, up)
        key = number, links
        if key not in self.known:
            promise = self.group.promises[number]
            way = least_cut_of_sets if len(self.group.devices) <= FEW_DEVICES else least_cut_of_flow
            self.known[key] = way(len(self.group.devices), self.edges(links), promise.first, promise.second)
        return self.known[key]

    def edges(self, links):
        rows = [self.group.links[number] for number in sorted(links)]
        return [(link.first, link.second, link.capacity) for link in rows]

    def holds(self, number, up):
        """A walk joins the pair, and every cut of it has at least the need."""
        promise = self.group.promises[number]
        edges = self.edges(up_links(self.group, up))
        if promise.second not in reached(edges, promise.first):
            return False
        return self.least_cut(number, up)[0] >= self.needs[number]

    def first_broken(self, before, after):
        """The first promise that holds with `before` up and not with `after`, or None."""
        for number in range(len(self.group.promises)):
            if self.holds(number, before) and not self.holds(number, after):
                has, side = self.least_cut(number, after)
                return Break(number, has == 0, self.needs[number], has, side)
        return None


def up_links(group, up):
    """The numbers of the links of a set whose two ends are in it too."""
    return frozenset(
        number for number, link in enumerate(group.links)
        if Entity(True, number) in up and Entity(False, link.first) in up and Entity(False, link.second) in up
    )


def reached(edges, start):
    """The devices that a walk joins with `start`, and `start` itself."""
    found = {start}
    waiting = deque([start])
    while waiting:
        here = waiting.popleft()
        for first, second, _ in edges:
            for near, far in ((first, second), (second, first)):
                if near == here and far not in found:
                    found.add(far)
                    waiting.append(far)
    return found


def least_cut_of_sets(devices, edges, first, second):
    """Over all sets of devices with `first` and without `second`: the least value, and what all cuts of it share."""
    others = [device for device in range(devices) if device not in (first, second)]
    least, shared = None, None
    for choice in range(1 << len(others)):
        inside = 1 << first
        for place, device in enumerate(others):
            if choice >> place & 1:
                inside |= 1 << device
        value = sum(capacity for a, b, capacity in edges if (inside >> a ^ inside >> b) & 1)
        if least is None or value < least:
            least, shared = value, inside
        elif value == least:
            shared &= inside
    return least, tuple(device for device in range(devices) if shared >> device & 1)


def least_cut_of_flow(devices, edges, first, second):
    """By shortest augmenting paths; the least side is what the rest of the capacities still reaches."""
    rest = [dict() for _ in range(devices)]
    for a, b, capacity in edges:
        rest[a][b] = rest[a].get(b, 0) + capacity
        rest[b][a] = rest[b].get(a, 0) + capacity
    flow = 0
    while True:
        came_from = {first: None}
        waiting = deque([first])
        while waiting and second not in came_from:
            here = waiting.popleft()
            for there, capacity in rest[here].items():
                if capacity > 0 and there not in came_from:
                    came_from[there] = here
                    waiting.append(there)
        if second not in came_from:
            return flow, tuple(sorted(came_from))
        path, here = [], second
        while came_from[here] is not None:
            path.append((came_from[here], here))
            here = came_from[here]
        amount = min(rest[a][b] for a, b in path)
        for a, b in path:
            rest[a][b] -= amount
            rest[b][a] += amount
        flow += amount
