#!/usr/bin/env python3
"""Makes all lists of commands from the table commands.txt.

    checks/commands.py              says which list differs from the table, and which row of a command is missing
    checks/commands.py --write      writes the lists

It writes
- in `mpd_command`: the rows of each group's definitions, and their imports; the doc comments of the variants, and the arms of `drop`; the
  names in byte order and where each letter begins (src/name.rt), which names the everyday profile adds, and which tables proofs unfold;
- the rows of the base profile and of its proof (`command_laws`), and which subsystem of `idle` reports that an answer has changed
  (`notice_laws`);
- the sessions of `transcript_tests` that list all names; the list in the manual; and the commands that the manual, README and
  docs/DIFFERENCES.md name as missing.

The script finds each list by the text around it, so the sources need no marks. A list that differs only in its line breaks is left alone.
What a command does, and what is proved about it, is written by hand: for such lists (`BY_HAND`) the script only says which rows are
missing. It also names each TODO that is left of a skeleton that checks/new_command wrote. The exit status is 1 if anything differs.
"""
import glob
import os
import re
import subprocess
import sys

sys.dont_write_bytecode = True

from command_table import TABLE, Table, table
from crates import TOP, read

NAME, NAMES, KNOWN = ('crates/mpd_command/' + it for it in ('src/name.rt', 'specs/Names.antt', 'proofs/Known.antt'))
BASE, BASE_ROWS = 'crates/command_laws/specs/Base.antt', 'crates/command_laws/proofs/BaseRows.antt'
TELLERS = 'crates/notice_laws/specs/Tellers.antt'
EFFECTS = 'crates/player_state/src/effect.rt'
ROWS = 'crates/transcript_tests/data/%s.row'
MANUAL, README, DIFFERENCES = 'packaging/music_daemon.1', 'README.md', 'docs/DIFFERENCES.md'
EDITS = 'checks/edits/mpd_command/*.edit'
NAME_COLUMNS, SPEC_COLUMNS, CODE_COLUMNS = 106, 130, 110
# the words that rows use, by the module that defines them; those of the modules Tables and Forms are read from the modules themselves
MODULES = {
    'mpd_text.specs.Answers.Number': {'number_of'}, 'mpd_text.specs.Answers.Range': {'range_of'}, 'mpd_text.specs.Answers.Millis': {'millis_of'},
    'filters.specs.declared.expression.Test.TheVariants': {'Equals', 'Contains'},
}
# the lists of commands that are written by hand, in proofs and definitions: the group; which of its commands it lists (all, or those with a
# line `told`); the file; and the definition
BY_HAND = [
    ('queue', 'all', 'crates/queue_laws/proofs/Edits.antt', 'all-good'),
    ('options', 'all', 'crates/queue_laws/proofs/Options.antt', 'set-is-shown'),
    ('outputs', 'all', 'crates/queue_laws/proofs/Outputs.antt', 'all-good'),
    ('stickers', 'all', TELLERS, 'sticker_tellers'),
    ('queue', 'told', 'crates/notice_laws/proofs/Queue.antt', 'same_queue_answer'),
    ('queue', 'told', 'crates/notice_laws/proofs/Queue.antt', 'tells_playlist'),
    ('status', 'told', 'crates/notice_laws/proofs/Queue.antt', 'status_is_told'),
    ('options', 'told', 'crates/notice_laws/proofs/Clients.antt', 'options_are_told'),
    ('outputs', 'told', 'crates/notice_laws/proofs/Clients.antt', 'outputs_are_told'),
    ('messages', 'told', 'crates/notice_laws/proofs/Clients.antt', 'channels_are_told'),
    ('partitions', 'told', 'crates/notice_laws/proofs/Clients.antt', 'partitions_are_told'),
    ('database', 'told', 'crates/notice_laws/proofs/Library.antt', 'same_database'),
    ('database', 'told', 'crates/notice_laws/proofs/Library.antt', 'tells_database'),
    ('playlists', 'told', 'crates/notice_laws/proofs/Library.antt', 'playlists_are_told'),
]


class Lost(Exception):
    """A list was not found."""


# ---- lists in a text

def words_of(text):
    return text.replace('///', ' ').split()


def put(text, pattern, new):
    """The text with the part that the pattern's group matches replaced, unless it has the same words already."""
    found = list(re.finditer(pattern, text, re.M | re.S))
    if len(found) != 1:
        raise Lost('%s places match %s, and one should' % (len(found) or 'no', pattern))
    start, end = found[0].span(1)
    return text if words_of(text[start:end]) == words_of(new) else text[:start] + new + text[end:]


def filled(items, columns, lead='    '):
    """The items in lines that are as full as they may be."""
    lines = [lead + items[0]]
    for item in items[1:]:
        if len(lines[-1]) + 1 + len(item) > columns:
            lines.append(lead + item)
        else:
            lines[-1] += ' ' + item
    return '\n'.join(lines)


# ---- the names

def unfolded(groups):
    """The definitions of all tables, in the form that attributes need, in the order of their files' names."""
    return ['crate::specs::%s::%s' % (group.spec, name) for group in by_spec(groups) for name in group.row_names()]


def by_spec(groups):
    return sorted(groups, key=lambda group: group.spec)


def starts_of(made):
    """How many names come before each letter, and how many before the character after `z`."""
    return [sum(name < chr(code) for name in made.names()) for code in range(ord('a'), ord('z') + 2)]


def written_edit(text, made):
    """The edit (a wrong function body) by which the names with `d` begin one place too late."""
    a, b, c, d, e, *_ = starts_of(made)
    text = put(text, r'^old: ([^\n]*)\n', '%d, %d, %d, %d, %d,' % (a, b, c, d, e))
    return put(text, r'^new: ([^\n]*)\n', '%d, %d, %d, %d, %d,' % (a, b, c, d + 1, e))


def written_names(text, made):
    """src/name.rt: the names, where each letter begins, and what its proofs unfold."""
    commands = ['"%s": %s,' % (it.name, 'ADDED' if it.is_everyday else 'BASE') for it in made.named()]
    starts = ['%d,' % start for start in starts_of(made)]
    text = put(text, r'^const COMMANDS: [^\n]* \{\n(.*?)\n\};', filled(commands, NAME_COLUMNS))
    text = put(text, r'^const STARTS: [^\n]*&\[\n(.*?)\n\];', filled(starts, CODE_COLUMNS))
    for function in ('names', 'added', 'starts'):
        first = ['crate::specs::Names::starts'] if function == 'starts' else []
        words = ', '.join([*first, 'crate::specs::Names::all_names', *unfolded(made.groups)]) + ','
        text = put(text, r'^#\[tactic\(auto, unfolding\(([^()\n]*)\)\)\]\n(?:pub )?fn %s\(' % function, words)
    return text


def written_everyday(text, made):
    """specs/Names.antt: the names that the everyday profile adds."""
    codes = ['codes "%s"' % name for name in made.everyday_names()]
    return put(text, r'^everyday_names =\n(.*?)\n\n', filled([codes[0], *('∷ ' + it for it in codes[1:]), '∷ []'], SPEC_COLUMNS))


def with_rows_used(text, groups):
    """A proof with imports of the definitions of these groups' tables."""
    for group in groups:
        names = ', '.join(['rows as %s_rows' % group.key, *group.row_names()[1:]])
        text = put(text, r'^use Rattle\.mpd_command\.specs\.%s\.\{([^}\n]*)\}' % group.spec, names)
    return text


def unfolded_here(groups):
    """The definitions of these groups' tables, by the names that a proof gives them."""
    return [word for group in by_spec(groups) for word in ['%s_rows' % group.key, *group.row_names()[1:]]]


def written_known(text, made):
    """proofs/Known.antt: the tables that its proofs unfold."""
    text = with_rows_used(text, made.groups)
    words = ['all_names', *unfolded_here(made.groups)]
    for proof, more in (('all-stand', ['starts']), ('starts-fit', ['starts']), ('added-named', [])):
        text = put(text, r'^%s : [^\n]*\nunfolding ([^\n]*)\n' % proof, ' '.join(words + more))
    return text


# ---- the groups

def defined_in(path):
    return set(re.findall(r'^(?:abbrev |unfoldable )?pub (\w+) :', read(path), re.M))


def imported(text, module, words):
    """A file, with these words of a module of definitions imported too."""
    used = re.search(r'^((?:ghost )?use Rattle\.%s\.)\{([^}\n]*)\}' % re.escape(module), text, re.M)
    has = [word.strip() for word in used.group(2).split(',')] if used else []
    lacks = [word for word in dict.fromkeys(words) if word not in has]
    if used and lacks:
        return text[:used.end() - 1] + ''.join(', ' + word for word in lacks) + text[used.end() - 1:]
    if lacks:
        return re.sub(r'^use Rattle\.mpd_command', 'use Rattle.%s.{%s}\n\\g<0>' % (module, ', '.join(lacks)), text, count=1, flags=re.M)
    return text


def with_imports(text, words):
    """A file of definitions, with imports of these words, which its rows use."""
    modules = dict(MODULES)
    modules['mpd_command.specs.Tables'] = defined_in('crates/mpd_command/specs/Tables.antt')
    modules['command_arguments.specs.Forms'] = defined_in('crates/command_arguments/specs/Forms.antt')
    own = set(re.findall(r'^(?:abbrev |unfoldable )?pub (\w+) :', text, re.M))
    for module, known in modules.items():
        text = imported(text, module, [word for word in words if word in known - own])
    return text


def written_rows(group):
    def written(text, _made):
        """specs/GROUP.antt: the rows of its tables, and their imports."""
        names = group.row_names()
        for at, rows in enumerate(group.rows):
            behind = (names[at + 1] + (' set' if group.takes_set(at + 1) else '')) if at + 1 < len(names) else '[]'
            lines = ['(codes "%s", %s)' % (command.name, command.row) for command in rows] + [behind]
            pattern = r'^%s%s =\s(.*?)(?=\n\n|\s*\Z)' % (names[at], ' set' if group.takes_set(at) else '')
            text = put(text, pattern, '    ' + '\n    ∷ '.join(lines))
        return with_imports(text, re.findall(r'\w+', ' '.join(command.row for command in group.commands)))
    return written


def enum_in(text, name=r'\w+Command'):
    """The name of an enum, and its variants, each with the types of its values."""
    enum = re.search(r'^pub enum (%s) \{\n(.*?)^\}' % name, text, re.M | re.S)
    return enum.group(1), re.findall(r'^    ([A-Z]\w*)(?:\((.*)\))?,$', enum.group(2), re.M)


def arity(types):
    """How many values a variant has; types inside another type do not count."""
    while re.search(r'<[^<>]*>', types):
        types = re.sub(r'<[^<>]*>', '', types)
    return len([it for it in types.split(',') if it.strip()])


def with_drop(text, name):
    """A source, with the arms of its enum's `drop` written again, if it has one."""
    if 'impl Drop for %s {' % name not in text:
        return text
    values = [('%s::%s' % (name, variant), arity(types)) for variant, types in enum_in(text, name)[1]]
    arms = ['%s(%s)' % (variant, ', '.join('_' * count)) if count else variant for variant, count in values]
    return put(text, r'impl Drop for %s \{\n    fn drop\(self\) \{\n        match self \{\n +(.*?) => \{\}' % name, '\n            | '.join(arms))


def written_source(group):
    def written(text, _made):
        """src/GROUP.rt: the doc comments of its variants, and the arms of its `drop`."""
        for command in group.commands:
            doc = filled(('/// ' + command.doc).split(' '), CODE_COLUMNS).replace('\n    ', '\n    /// ')
            text = put(text, r'^((?: +///[^\n]*\n)+)(?= +%s(?:\(|,))' % command.variant, doc + '\n')
        return with_drop(text, enum_in(text)[0])
    return written


def in_order(group):
    """A group's commands in the order of their variants."""
    order = [variant for variant, _ in enum_in(read(group.source))[1]]
    return sorted(group.commands, key=lambda it: order.index(it.variant) if it.variant in order else len(order))


# ---- the laws

def predicate_of(group, text):
    """The definition in Base.antt that says which commands of a group are in the base profile; None if all are."""
    found = re.search(r'^abbrev pub (IsBase\w+) : %s → Type 0' % enum_in(read(group.source))[0], text, re.M)
    return found and found.group(1)


def written_base(text, made):
    """command_laws/specs/Base.antt: which commands the base profile has, and with which values."""
    for group in made.groups:
        name = predicate_of(group, text)
        if name:
            values = [(it.pattern(group.key), it.keys.get('base', '⊥' if it.is_everyday else 'Unit {0}')) for it in in_order(group)]
            text = put(text, r'^%s : [^\n]*\n((?:%s [^\n]*\n)+)' % ('abbrev pub ' + name, name), ''.join('%s %s = %s\n' % (name, *it) for it in values))
    return text


def proof_of(command, predicate):
    """The proof that in the base profile a row reads only commands of the base profile."""
    if 'law' in command.keys:
        return command.keys['law']
    if command.is_everyday:
        return 'none-there there'
    if command.row.startswith('none '):
        return 'alone %s _ words %s' % (predicate, 'refl' if 'base' in command.keys else 'tt')
    return 'search mapped'


def written_base_rows(text, made):
    """command_laws/proofs/BaseRows.antt: a line for each row."""
    base = read(BASE)
    groups = [group for group in made.groups if predicate_of(group, base)]
    text = with_rows_used(text, groups)
    for group in groups:
        commands = [command for rows in group.rows for command in rows]
        lines = ['(λ words there. %s)  -- %s' % (proof_of(it, predicate_of(group, base)), it.name) for it in commands]
        text = put(text, r'^%s : [^\n]*\nunfolding ([^\n]*)\n' % group.key, ' '.join(unfolded_here([group])))
        text = put(text, r'^%s set =\n(.*?⊙ tt)\n' % group.key, '    ' + '\n    ⊙ '.join(lines) + '\n    ⊙ tt')
    return text


def told_of(command):
    """Which subsystems of `idle` report that the command's answer has changed."""
    told = command.keys.get('told', '').split()
    if not told:
        return 'None'
    return 'Some []' if told == ['nothing'] else 'Some (%s)' % ' ∷ '.join(told + ['[]'])


def written_tellers(text, made):
    """notice_laws/specs/Tellers.antt: first the commands that only ask something, then the others."""
    for group in made.groups:
        found = re.search(r'^abbrev pub (\w+_tellers) : %s →' % enum_in(read(group.source))[0], text, re.M)
        if found and group.key != 'stickers':
            commands = sorted(in_order(group), key=lambda it: told_of(it) == 'None')
            lines = ''.join('%s %s = %s\n' % (found.group(1), it.pattern(group.key), told_of(it)) for it in commands)
            text = put(text, r'^abbrev pub %s : [^\n]*\n((?:%s [^\n]*\n)+)' % (found.group(1), found.group(1)), lines)
    subsystems = [word for group in made.groups for command in group.commands for word in command.keys.get('told', '').split() if word != 'nothing']
    return imported(text, 'idle_notes.specs.declared.subsystem.Subsystem.TheVariants', subsystems)


# ---- sessions and documents

def written_session(names):
    def written(text, made):
        """A session of `transcript_tests`: the answer to `commands`, without `kill`, which a script may not run."""
        found = [name for name in names(made) if name != 'kill']
        text = re.sub(r'there are \d+ names', 'there are %d names' % len(found), text)
        return put(text, r'^> 1 commands\n(?:< 1 OK MPD [^\n]*\n)?((?:< 1 command: \w+\n)+)', ''.join('< 1 command: %s\n' % it for it in found))
    return written


def base_names(made):
    return [command.name for command in made.named() if not command.is_everyday]


def shown(commands):
    """The forms of commands, as the manual's source has them."""
    notes = [' (%s)' % it.keys['note'] if 'note' in it.keys else '' for it in commands]
    return ', '.join('\\fB%s\\fR%s' % (it.form.replace('-', '\\-'), note) for it, note in zip(commands, notes))


def written_manual(text, made):
    """The manual: the commands and their forms, and what is missing."""
    parts, added = [], []
    for group in made.groups:
        if group.title:
            parts.append((group.title, []))
        parts[-1][1].extend(it for it in group.commands if not it.is_everyday)
        added += [it for it in group.commands if it.is_everyday]
    lines = ['.IP \\(bu 2\n%s: %s' % (title, shown(commands)) for title, commands in parts]
    made_list = 'The %d commands:\n%s.\n.PP\nWith\n.B everyday = true\nalso: %s.\n' % (len(base_names(made)), ';\n'.join(lines), shown(added))
    text = put(text, r'^\.\\" The list of checks/commands\.py\n(.*?)^\.\\" Its end\n', made_list)
    return put(text, r'replay gain other than off;\n\.BR ([^\n]*) \.\n', ' ", " '.join(most_missed(made)))


def most_missed(made):
    return [name for name, is_missed in made.missing if is_missed]


def written_readme(text, made):
    return put(text, r'Of the commands that are missing even with it, clients use these most: ([^\n]*?)\.$', ', '.join('`%s`' % name for name in most_missed(made)))


def written_differences(text, made):
    return put(text, r'^- \*\*Some commands are missing\*\*: ([^\n]*?)\.$', ', '.join('`%s`' % name for name, _ in made.missing))


def lists(made):
    """Each file that has a list, with the function that writes the list."""
    for group in made.groups:
        yield group.definitions, written_rows(group)
        yield group.source, written_source(group)
    yield from ((NAME, written_names), (NAMES, written_everyday), (KNOWN, written_known), (EFFECTS, lambda text, _: with_drop(text, 'CommandEffect')))
    yield from ((BASE, written_base), (BASE_ROWS, written_base_rows), (TELLERS, written_tellers))
    yield 'checks/edits/mpd_command/starts-of-d-one-late.edit', written_edit
    yield ROWS % 'everyday-commands', written_session(Table.names)
    yield ROWS % 'commands-seventy-eight', written_session(base_names)
    yield from ((MANUAL, written_manual), (README, written_readme), (DIFFERENCES, written_differences))


# ---- what is written by hand

def has_row(text, definition, variant):
    renamed = re.search(r'Command\.TheVariants\.\{[^}]*\b%s as (\w+)' % variant, text)
    variant = renamed.group(1) if renamed else variant
    return re.search(r'^ *%s [^\n]*\b%s\b' % (re.escape(definition), variant), text, re.M)


def wrong_by_hand(group):
    """The rows of a group that are missing in the lists which are written by hand."""
    source, (enum, variants) = read(group.source), enum_in(read(group.source))
    has, listed = {variant for variant, _ in variants}, {it.variant for it in group.commands}
    yield from ('%s: %s has no variant %s' % (group.source, enum, it) for it in sorted(listed - has))
    yield from ('%s: the variant %s is not in %s' % (group.source, it, TABLE) for it in sorted(has - listed))
    names = [command.name for rows in group.rows for command in rows]
    yield from ('%s: `read` has no row for %s' % (group.source, name) for name in names if '        "%s" => ' % name not in source)
    places = [('all', 'crates/%s/specs/%s.antt' % (group.doing, group.spec), 'planned' if group.key == 'partitions' else 'result_of')]
    places += [place[1:] for place in BY_HAND if place[0] == group.key]
    for which, path, definition in places:
        text = read(path)
        asked = [it for it in group.commands if which == 'all' or told_of(it) != 'None']
        yield from ('%s: `%s` has no row for %s' % (path, definition, it.variant) for it in asked if not has_row(text, definition, it.variant))


def stale_edits():
    """The edits of `mpd_command` whose old text is no longer in its file, for instance because a list has grown."""
    for path in sorted(glob.glob(os.path.join(TOP, EDITS))):
        edit = read(path)
        file, old = (re.search(r'(?m)^%s:(?: (.*)|$)' % key, edit) for key in ('file', 'old'))
        if file and old and old.group(1) and old.group(1).strip() not in read('crates/mpd_command/' + file.group(1)):
            yield '%s: its old text is no longer in %s' % (os.path.relpath(path, TOP), file.group(1))


def to_be_filled_in():
    """Where the skeleton of a command still says TODO."""
    for part in ('src/*.rt', 'specs/*.antt', 'proofs/*.antt', 'data/*.row'):
        for path in sorted(glob.glob(os.path.join(TOP, 'crates', '*', part))):
            yield from ('%s:%d: TODO' % (os.path.relpath(path, TOP), number) for number, line in enumerate(read(path).split('\n'), 1) if re.search(r'\bTODO\b', line))


def differing(made):
    """Each file that differs from the table, with the text that it should have. Raises `Lost` if a file has no such list."""
    texts = {}
    for path, written in lists(made):
        texts.setdefault(path, read(path))
        try:
            texts[path] = written(texts[path], made)
        except Lost as fault:
            raise Lost('%s: %s' % (path, fault)) from None
    return {path: text for path, text in texts.items() if text != read(path)}


def faults():
    """What differs from the table, what is missing, and what is not filled in yet."""
    made = table()
    wrong = made.wrong()
    try:
        wrong += ['%s differs from %s: run checks/commands.py --write' % (path, TABLE) for path in differing(made)]
    except Lost as fault:
        wrong.append(str(fault))
    for group in made.groups:
        wrong += wrong_by_hand(group)
    return wrong + list(stale_edits()) + list(to_be_filled_in())


def write():
    changed = differing(table())
    for path, text in changed.items():
        with open(os.path.join(TOP, path), 'w', encoding='utf-8') as file:
            file.write(text)
        print('wrote ' + path)
    subprocess.run([os.path.join(TOP, 'checks', 'rows_total')], check=True)


def main():
    if '--write' in sys.argv[1:]:
        try:
            write()
        except Lost as fault:
            sys.exit(str(fault))
    wrong = faults()
    print('\n'.join(wrong) or 'all lists agree with %s, which has %d commands' % (TABLE, len(table().names())))
    return bool(wrong)


if __name__ == '__main__':
    sys.exit(main())
