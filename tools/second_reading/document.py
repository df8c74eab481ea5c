"""What a document says: groups with their networks and wire lines, applications with their commands, and the order.

Entities, applications and groups stand by their numbers from 0; devices come before links, as `Entity` sorts them.
"""

from dataclasses import dataclass, field
from typing import NamedTuple

VARIABLES = {
    False: ("power", "firmware", "config", "routing"),
    True: ("power", "iface"),
}
POWER, FIRMWARE, CONFIG, ROUTING, IFACE = 0, 1, 2, 3, 1

# What only 0 or 1 may be.
SWITCHES = ("power", "routing")


class Entity(NamedTuple):
    """A device or a link of a group."""

    is_link: bool
    number: int

    def variables(self):
        return VARIABLES[self.is_link]

    def greatest_health(self):
        return 1 if self.is_link else 5


class Row(NamedTuple):
    """One variable of one entity, by its place among the entity's variables, with the value that it is to have."""

    entity: Entity
    variable: int
    value: int


class Device(NamedTuple):
    name: str
    is_tor: bool


class Link(NamedTuple):
    name: str
    first: int
    second: int
    capacity: int


class Promise(NamedTuple):
    first: int
    second: int
    percentage: int


class WireLine(NamedTuple):
    """A line `drop`, `repeat` or `hold`: `to_turn` is None for a `drop`."""

    word: str
    kind: str
    number: int
    to_turn: int


@dataclass
class Group:
    """A group as the document declares it."""

    name: str
    devices: list = field(default_factory=list)
    links: list = field(default_factory=list)
    promises: list = field(default_factory=list)
    named: dict = field(default_factory=dict)
    opened: dict = field(default_factory=dict)
    healths: dict = field(default_factory=dict)
    wire_lines: list = field(default_factory=list)

    def entities(self):
        """All entities, devices first."""
        devices = [Entity(False, number) for number in range(len(self.devices))]
        return devices + [Entity(True, number) for number in range(len(self.links))]

    def name_of(self, entity):
        return (self.links if entity.is_link else self.devices)[entity.number].name

    def variable_name(self, entity, variable):
        return "%s.%s" % (self.name_of(entity), entity.variables()[variable])

    def assignment(self, row):
        return "%s=%d" % (self.variable_name(row.entity, row.variable), row.value)

    def opening_values(self, entity):
        """The opening value of each variable of an entity, in order; 1 where no `open` line gives it."""
        places = range(len(entity.variables()))
        return tuple(self.opened.get((entity, place), 1) for place in places)

    def opening_health(self, entity):
        return self.healths.get(entity, entity.greatest_health())


class Propose(NamedTuple):
    group: int
    rows: tuple


class Await(NamedTuple):
    group: int


class Settle(NamedTuple):
    group: int
    rounds: int


class TakeLock(NamedTuple):
    group: int
    entity: Entity
    priority: str


class ReturnLock(NamedTuple):
    group: int
    entity: Entity
    priority: str


class Read(NamedTuple):
    group: int
    entity: Entity
    variable: int


class ReadAt(NamedTuple):
    group: int
    version: int
    entity: Entity
    variable: int


class BreakDown(NamedTuple):
    """The command `fail`: `named` has the values that the line gives, by the variables' places."""

    group: int
    entity: Entity
    health: int
    named: tuple


class Poll(NamedTuple):
    group: int
    entity: Entity


@dataclass
class Application:
    name: str
    commands: list = field(default_factory=list)


@dataclass
class Document:
    groups: list = field(default_factory=list)
    applications: list = field(default_factory=list)
    order: list = field(default_factory=list)
