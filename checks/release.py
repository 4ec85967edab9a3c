#!/usr/bin/env python3
"""Checks that whatever names the version names that of the code.

    checks/release.py

It fails if the first line of the manual or the newest entry of CHANGELOG.md has another version, or if these two have different dates;
if the package's copyright file leaves out a library that is linked; or if README.md lacks a command of the package's README.
packaging/deb and the launcher `music_daemon` read the version from the code.
"""
import re
import sys

sys.dont_write_bytecode = True

from crates import TOP, below, read, table_of

CODE, MANUAL, CHANGES = 'crates/command_line/src/arguments.rt', 'packaging/music_daemon.1', 'CHANGELOG.md'
COPYRIGHT, FIRST = 'packaging/debian/copyright', 'packaging/debian/README.Debian'
LINE = re.compile(r'(?m)^pub const VERSION: &str = "(.*)";$')


def version():
    """The version that the code has."""
    found = LINE.findall(read(CODE))
    if len(found) != 1:
        sys.exit('%s does not have exactly one line with the version' % CODE)
    return found[0]


def libraries():
    """The toolchain's libraries that crates.txt names for the program and the crates below it."""
    own = table_of(TOP)
    lines = below(TOP, ['music_daemon']).values()
    return sorted({name for line in lines for name in line.split(':')[1].split()} - set(own))


def unnamed(text):
    """The libraries that a copyright file does not name."""
    named = re.findall(r'rattle/(\w+)(\*|/\*)', text)
    return [library for library in libraries()
            if not any(library.startswith(name) if ending == '*' else library == name for name, ending in named)]


def faults():
    wrong, number = [], version()
    head = re.search(r'(?m)^\.TH MUSIC_DAEMON 1 "(.*?)" "music_daemon (.*?)"', read(MANUAL))
    entry = re.search(r'(?m)^## (\S+) \((.*?)\)$', read(CHANGES))
    if not head or head.group(2) != number:
        wrong.append("%s: its first line does not have the code's version, %s" % (MANUAL, number))
    if not entry or entry.group(1) != number:
        wrong.append("%s: its newest entry does not have the code's version, %s" % (CHANGES, number))
    if head and entry and head.group(1) != entry.group(2):
        wrong.append('%s has the date %s, and %s has %s' % (MANUAL, head.group(1), CHANGES, entry.group(2)))
    wrong += ['%s does not name %s' % (COPYRIGHT, library) for library in unnamed(read(COPYRIGHT))]
    lines = read('README.md').split('\n')
    wrong += ['README.md lacks the command `%s` of %s' % (line.strip(), FIRST)
              for line in read(FIRST).split('\n') if line.startswith('    ') and line not in lines]
    return wrong


def main():
    wrong = faults()
    print('\n'.join(wrong) or 'version %s; the licences of all %d linked libraries are named' % (version(), len(libraries())))
    return bool(wrong)


if __name__ == '__main__':
    sys.exit(main())
