"""The table of commands: how many arguments each has, which forms these have, and what the command does."""
from dataclasses import dataclass
from operator import attrgetter
from typing import Callable

from words import ARGUMENT, PERMISSION, UNKNOWN, Ack, NoCommand

# The commands of a daemon without the everyday profile, and of one with it.
BASE, EVERYDAY = {}, {}


class WrongNumber(Exception):
    """There are too few or too many arguments."""


@dataclass
class Command:
    name: str
    read: Callable
    run: Callable


@dataclass
class Speaker:
    """The client that sent a command, and the daemon that runs it."""
    world: object
    client: object

    partition = property(lambda self: self.world.partitions[self.client.partition])
    queue = property(attrgetter('partition.queue'))
    player = property(attrgetter('partition.player'))
    order = property(attrgetter('partition.player.order'))
    library = property(attrgetter('world.library'))
    shelf = property(attrgetter('world.shelf'))


def by_forms(forms, optional, more):
    """Reads arguments of these forms, and then arguments of the optional forms, or one or more of the form `more`."""
    def read(arguments):
        most = len(arguments) if more else len(forms) + len(optional)
        least = len(forms) + (1 if more else 0)
        if not least <= len(arguments) <= most:
            raise WrongNumber()
        every = [*forms, *optional, *[more] * len(arguments)]
        return [form(word) for form, word in zip(every, arguments)]
    return read


def registered(tables, name, read):
    def register(run):
        for table in tables:
            table[name] = Command(name, read, run)
        return run
    return register


def command(name, *forms, optional=(), more=None, read=None):
    """Registers a command of both profiles. `read` reads the arguments, if a list of forms cannot describe them."""
    return registered((BASE, EVERYDAY), name, read or by_forms(forms, optional, more))


def everyday(name, *forms, optional=(), more=None, read=None):
    """Registers a command of the everyday profile, in place of that of the base profile, if there is one."""
    return registered((EVERYDAY,), name, read or by_forms(forms, optional, more))


def names(world):
    """The names of all commands but `kill`, which a script may not use."""
    return sorted(EVERYDAY if world.everyday else BASE)


def typed(words, world):
    """The command that the words of a line name, and its arguments; raises the first refusal."""
    if not words:
        raise NoCommand(UNKNOWN, 'no command given')
    found = (EVERYDAY if world.everyday else BASE).get(words[0])
    if words[0] == 'kill':
        raise Ack(PERMISSION, 'no permission for "kill"')
    if found is None:
        raise NoCommand(UNKNOWN, 'unknown command "%s"' % words[0])
    try:
        return found, found.read(words[1:])
    except WrongNumber:
        raise Ack(ARGUMENT, 'wrong number of arguments for "%s"' % words[0]) from None
