"""How many entries a document's commands can add to a group's journal (*most* in docs/DEFINITIONS.md)."""

from document import Await, BreakDown, Poll, Propose, ReturnLock, Settle, TakeLock
from journal import MOST_PENDING


def most(document, number):
    """The sum of the shares, and for each application the checks of 64 pending proposals."""
    group = document.groups[number]
    shares = [share(group, command) for application in document.applications for command in application.commands
              if command.group == number]
    return sum(shares) + MOST_PENDING * len(document.applications)


def share(group, command):
    """How many entries the command adds at the most."""
    if isinstance(command, Propose):
        # A check where as many wait as may, the proposal itself, and one check more by the group's checker.
        return 3
    if isinstance(command, Await):
        return MOST_PENDING
    if isinstance(command, Settle):
        # One more round than is asked for.
        return turn_share(group) * len(group.entities()) * (command.rounds + 1)
    if isinstance(command, (TakeLock, ReturnLock, BreakDown)):
        return 1
    if isinstance(command, Poll):
        return 2 + len(group.wire_lines)
    return 0


def turn_share(group):
    """Send, Withdraw, Finish and Report, and at the most a Deliver and a Hear of the message itself and of one that each wire line brings."""
    return 6 + 2 * len(group.wire_lines)
