"""A document as it is printed, and the journals behind it: what the form `replay` writes (docs/FORMATS.md)."""

from document import Await, BreakDown, Poll, Propose, Read, ReadAt, ReturnLock, Settle, TakeLock
from journal import entry_line


def replay_form(document, journals):
    """The document, and then the journal of each group in order."""
    lines = list(document_lines(document))
    for group, entries in zip(document.groups, journals):
        lines.append("journal %s" % group.name)
        lines += [entry_line(document, group, number, entry) for number, entry in enumerate(entries, 1)]
    return "".join(line + "\n" for line in lines)


def document_lines(document):
    yield "statesman 1"
    for group in document.groups:
        yield from group_lines(group)
    for group in document.groups:
        for line in group.wire_lines:
            turn = [] if line.to_turn is None else [str(line.to_turn)]
            yield " ".join([line.word, group.name, line.kind, str(line.number)] + turn)
    for application in document.applications:
        yield "app %s" % application.name
        for command in application.commands:
            yield command_line(document.groups[command.group], command)
    for application in document.order:
        yield "order %s" % document.applications[application].name


def group_lines(group):
    yield "group %s" % group.name
    for device in group.devices:
        yield "device %s %s" % (device.name, "tor" if device.is_tor else "switch")
    for link in group.links:
        yield "link %s %s %s %d" % (
            link.name, group.devices[link.first].name, group.devices[link.second].name, link.capacity)
    for promise in group.promises:
        yield "promise %s %s %d" % (
            group.devices[promise.first].name, group.devices[promise.second].name, promise.percentage)
    for entity in group.entities():
        for variable, value in enumerate(group.opening_values(entity)):
            if value != 1:
                yield "open %s=%d" % (group.variable_name(entity, variable), value)
    for entity in group.entities():
        if group.opening_health(entity) != entity.greatest_health():
            yield "health %s %d" % (group.name_of(entity), group.opening_health(entity))


def command_line(group, command):
    if isinstance(command, Propose):
        words = ["propose", group.name] + [group.assignment(row) for row in command.rows]
    elif isinstance(command, Await):
        words = ["await", group.name]
    elif isinstance(command, Settle):
        words = ["settle", group.name, command.rounds]
    elif isinstance(command, (TakeLock, ReturnLock)):
        word = "lock" if isinstance(command, TakeLock) else "unlock"
        words = [word, group.name, group.name_of(command.entity), command.priority]
    elif isinstance(command, Read):
        words = ["read", group.name, group.variable_name(command.entity, command.variable)]
    elif isinstance(command, ReadAt):
        words = ["readat", group.name, command.version, group.variable_name(command.entity, command.variable)]
    elif isinstance(command, BreakDown):
        variables = command.entity.variables()
        words = ["fail", group.name, group.name_of(command.entity), command.health]
        words += ["%s=%d" % (variables[variable], value) for variable, value in command.named]
    else:
        assert isinstance(command, Poll)
        words = ["poll", group.name, group.name_of(command.entity)]
    return " ".join(map(str, words))
