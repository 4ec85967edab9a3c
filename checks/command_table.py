"""Reads the table of commands, commands.txt. The comment at the top of that file says what each line means."""
import re
from dataclasses import dataclass, field

from crates import read

TABLE = 'commands.txt'
MOST_ROWS = 7
# SOURCES: the source file of a group, if it is not named after the group; DOING: the crate that says what the group's commands do, if it is
# not `status_commands`
SOURCES = {'stickers': 'sticker'}
DOING = {
    'database': 'library_commands', 'playlists': 'library_commands', 'stickers': 'library_commands', 'partitions': 'partition_commands',
    'queue': 'queue_commands', 'playback': 'queue_commands',
}
KEYS = {'profile', 'told', 'base', 'law', 'note'}


class Misread(Exception):
    """A line of the table that cannot be read."""


@dataclass
class Command:
    """A command; if it has no row, it is one more form of the command above it."""
    form: str
    does: str
    variant: str = ''
    arguments: list = field(default_factory=list)
    row: str = ''
    keys: dict = field(default_factory=dict)

    @property
    def name(self):
        return self.form.split(' ')[0]

    @property
    def is_everyday(self):
        return self.keys.get('profile') == 'everyday'

    @property
    def doc(self):
        """The doc comment of its variant."""
        return '`%s`%s' % (self.form, ': ' + self.does if self.does else '.')

    def pattern(self, prefix):
        """The command, as a pattern in a definition."""
        words = ' '.join(['%s.%s' % (prefix, self.variant), *self.arguments])
        return '(%s)' % words if self.arguments else words


@dataclass
class Group:
    key: str
    title: str
    tables: list = field(default_factory=lambda: [[]])

    @property
    def commands(self):
        return [command for table in self.tables for command in table]

    @property
    def rows(self):
        """The commands that have rows, table by table."""
        return [[command for command in table if command.row] for table in self.tables]

    @property
    def source(self):
        return 'crates/mpd_command/src/%s.rt' % SOURCES.get(self.key, self.key)

    @property
    def spec(self):
        return self.key.capitalize()

    @property
    def definitions(self):
        return 'crates/mpd_command/specs/%s.antt' % self.spec

    @property
    def doing(self):
        """The crate that says what its commands do."""
        return DOING.get(self.key, 'status_commands')

    def row_names(self):
        """The names of the definitions of its tables."""
        return ['rows', *('rows_from_' + rows[0].name for rows in self.rows[1:])]

    def takes_set(self, at):
        """Whether the definition of a table needs to know which set of commands there is, since a row of it, or of a later table, does."""
        return any(re.search(r'\bset\b', command.row) for rows in self.rows[at:] for command in rows)


def add_line(command, line):
    """Adds what an indented line says about a command."""
    key, colon, value = line.partition(': ')
    if colon and key in KEYS:
        command.keys[key] = value
        return
    left, _, command.row = line.partition(' = ')
    command.variant, *command.arguments = left.split()
    if not re.fullmatch(r'[A-Z]\w*', command.variant):
        raise Misread('it begins neither with a variant nor with one of %s' % ', '.join(sorted(KEYS)))


def add_to(groups, missing, line):
    """Adds what one line of the table says."""
    if line.startswith('== '):
        key, _, title = line[3:].partition(': ')
        groups.append(Group(key, title))
    elif groups and groups[-1].key == 'missing':
        missing.append((line.split(' ')[0], line.endswith(' *')))
    elif line == '--':
        groups[-1].tables.append([])
    elif line.startswith('    '):
        add_line(groups[-1].commands[-1], line.strip())
    else:
        form, _, does = line.partition(': ')
        groups[-1].tables[-1].append(Command(form, does))


def wrong_in(group):
    """What is wrong in a group of the table."""
    for rows in group.rows:
        if len(rows) > MOST_ROWS:
            yield '%s: a table of readers has at most %d rows; begin another one with --' % (rows[0].name, MOST_ROWS)
    names = [command.name for rows in group.rows for command in rows]
    if names != sorted(names):
        yield 'the commands of %s are not in byte order' % group.key
    for command in group.commands:
        if not command.variant:
            yield '%s has no variant' % command.form
        if 'TODO' in ' '.join([command.form, command.does, command.row, *command.arguments, *command.keys.values()]):
            yield '%s still has a TODO' % command.form


class Table:
    """The groups, and the names of MPD's commands that the daemon lacks, each with whether README and the manual name it."""

    def __init__(self, text):
        self.groups, self.missing = [], []
        for number, line in enumerate(text.split('\n'), 1):
            if line.strip() and not line.startswith('#'):
                try:
                    add_to(self.groups, self.missing, line.rstrip())
                except (IndexError, Misread) as fault:
                    raise SystemExit('%s:%d: this line cannot be read: %s' % (TABLE, number, fault)) from None
        self.groups = [group for group in self.groups if group.key != 'missing']

    def named(self):
        """The commands in the byte order of their names, each once, whatever forms it has."""
        return sorted((command for group in self.groups for command in group.commands if command.row), key=lambda it: it.name)

    def names(self):
        return [command.name for command in self.named()]

    def everyday_names(self):
        return [command.name for command in self.named() if command.is_everyday]

    def wrong(self):
        """What is wrong in the table itself."""
        found = [fault for group in self.groups for fault in wrong_in(group)]
        names = self.names()
        found += ['%s occurs twice' % name for name in sorted(set(names)) if names.count(name) > 1]
        found += ['%s is a command, and is listed below `== missing` too' % name for name, _ in self.missing if name in names]
        return ['%s: %s' % (TABLE, fault) for fault in found]


def table():
    return Table(read(TABLE))
