#!/usr/bin/env python3
"""Checks that what the documents name exists in the sources.

    checks/documents.py

It fails if
- a word in backquotes is nowhere in the code, the checks or the packaging (comments in the code do not count); a word in a crate's README
  must be in that crate, in one that it depends on directly, or outside all crates;
- a document names a call `Type::name`, and no file has both the type and the name; or it names a path that is not in the repository;
- a library of crates.txt has no README, or a list of commands is not what `checks/commands.py` makes from commands.txt;
- a diagram in docs/MAP.md is not what `checks/map.py` draws, or the manual or CHANGELOG.md has another version than the code
  (`checks/release.py`);
- README's first screen, which is everything before its first heading, has more than 25 lines of 100 columns.

OTHERS lists the words that come from elsewhere: from MPD, from the toolchain, or from a package.
"""
import os
import re
import sys
import textwrap

sys.dont_write_bytecode = True

import commands
import map as diagrams
import release
from crates import table_of

TOP = os.path.dirname(os.path.dirname(os.path.abspath(__file__)))
SCREEN_LINES, SCREEN_COLUMNS = 25, 100
PARTS = ('src', 'specs', 'proofs')
BESIDE = ('checks', 'packaging', 'examples')
BUILT = {'out', '__pycache__', '.git'}
OTHERS = {
    'MPD': {'connection_timeout'},
    'the toolchain': {'kit', 'lemma', 'plant', 'dac8208d650f15bf', 'verdict', 'tidy'},
    'packages of Debian': {'alsa', 'sudo', 'xvfb'},
}
WORD = re.compile(r'[A-Za-z_][A-Za-z0-9_]*')
PATH = re.compile(r'(?:\.ci|checks|crates|docs|examples|packaging|proofs|src|specs)/[\w./-]*')
CALL = re.compile(r'\b([A-Z]\w*)::(\w+)')
SPAN = re.compile(r'`([^`]+)`')


def files_in(folder):
    for at, folders, names in os.walk(os.path.join(TOP, folder)):
        folders[:] = sorted(set(folders) - BUILT)
        for name in sorted(names):
            yield os.path.join(at, name)


def read(path):
    with open(path, encoding='utf-8', errors='replace') as file:
        return file.read()


def code_of(path):
    """A file's text; of code, without its comments."""
    text = read(path)
    if path.endswith('.rt'):
        return re.sub(r'(?m)^\s*//.*$', '', text)
    return re.sub(r'(?m)^\s*--.*$', '', text) if path.endswith('.antt') else text


def sources():
    """The files of each crate, each as its path and its text."""
    return {crate: [(path, code_of(path)) for part in PARTS for path in files_in('crates/%s/%s' % (crate, part))]
            for crate in table_of(TOP)}


def words_of(crate, files):
    """The words of a crate's code, and the names of its files."""
    found = {crate}
    for path, text in files:
        found.update(WORD.findall(os.path.relpath(path, TOP)))
        found.update(WORD.findall(text))
    return found


def words_beside():
    """The words of the checks, the packaging and the examples, and of the names of all files."""
    found = set().union(*OTHERS.values())
    for folder in BESIDE:
        for path in files_in(folder):
            found.update(WORD.findall(os.path.relpath(path, TOP)))
            if not path.endswith('.md') and path != os.path.abspath(__file__):
                found.update(WORD.findall(read(path)))
    for name in ('commands.txt', 'crates.txt', 'HANDLES', 'look', 'music_daemon', '.ci/run'):
        found.update(WORD.findall(name + ' ' + read(os.path.join(TOP, name))))
    for path in files_in('crates'):
        if '/data/' in path:
            found.update(WORD.findall(os.path.relpath(path, TOP) + ' ' + read(path)))
    return found


def documents():
    """Each document, with the crate that it belongs to, or None."""
    crates = table_of(TOP)
    for path in files_in('.'):
        if path.endswith('.md'):
            parts = os.path.relpath(path, TOP).split(os.sep)
            yield os.path.normpath(path), parts[1] if parts[0] == 'crates' and parts[1] in crates else None


def stands_on(crate):
    return table_of(TOP)[crate].split(':')[1].split()


def is_call(kind, name, files):
    """Whether a file has both this type (or an `impl` of it) and an item of this name."""
    type_of = re.compile(r'(?m)^\s*(?:pub |unsafe )*(?:struct|enum|trait|type|impl)\b.*\b%s\b' % kind)
    item = re.compile(r'(?:\bfn %s\b|(?m:^\s+%s\b))' % (name, name))
    return any(type_of.search(text) and item.search(text) for path, text in files if path.endswith('.rt'))


def is_path(path, crate):
    places = [TOP] + ([os.path.join(TOP, 'crates', crate)] if crate else [os.path.join(TOP, 'crates', it) for it in table_of(TOP)])
    return any(os.path.exists(os.path.join(place, path + ending)) for place in places for ending in ('', '.antt'))


def named_wrong(path, crate, files, words, beside):
    """What a document names and does not exist, line by line."""
    crates = [crate, *(it for it in stands_on(crate) if it in files)] if crate else list(files)
    known = set().union(beside, *(words[it] for it in crates))
    for number, line in enumerate(read(path).split('\n'), 1):
        at = '%s:%d' % (os.path.relpath(path, TOP), number)
        for span in SPAN.findall(line):
            paths = [it.rstrip('./') for it in PATH.findall(span)]
            yield from ('%s: there is no %s' % (at, it) for it in paths if not is_path(it, crate) and not re.search(r'/out\b|[A-Z]{3}', it))
            names = [it for it in WORD.findall(span) if len(it) > 2 and not it.isupper()]
            yield from ('%s: `%s` is nowhere in the sources' % (at, it) for it in names if it not in known)
            for kind, name in CALL.findall(span):
                if not any(is_call(kind, name, files[it]) for it in crates):
                    yield '%s: there is no `%s::%s`' % (at, kind, name)


def missing():
    """The libraries of crates.txt that have no README."""
    for crate in table_of(TOP):
        has = {name for name in ('specs', 'README.md') if os.path.exists(os.path.join(TOP, 'crates', crate, name))}
        if has == {'specs'}:
            yield 'crates/%s has no README.md' % crate


def screen_lines():
    """How many lines README's first screen has."""
    front = read(os.path.join(TOP, 'README.md')).split('\n## ')[0].rstrip().split('\n')
    return sum(max(1, len(textwrap.wrap(line, SCREEN_COLUMNS))) for line in front)


def check(_program=None):
    files = sources()
    words = {crate: words_of(crate, files[crate]) for crate in files}
    beside = words_beside()
    wrong = [fault for path, crate in documents() for fault in named_wrong(path, crate, files, words, beside)]
    wrong += missing()
    wrong += commands.faults()
    wrong += diagrams.faults()
    wrong += release.faults()
    lines = screen_lines()
    if lines > SCREEN_LINES:
        wrong.append("README's first screen has %d lines, and should have at most %d" % (lines, SCREEN_LINES))
    print('\n'.join(wrong + ["documents: README's first screen has %d lines; faults: %d" % (lines, len(wrong))]))
    return len(wrong)


if __name__ == '__main__':
    sys.exit(1 if check() else 0)
