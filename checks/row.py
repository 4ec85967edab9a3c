#!/usr/bin/env python3
"""Reads a worked row by its name, for `./look row NAME`.

    row.py NAME             prints the lines of its session, as `music_daemon script` reads them
    row.py NAME OUTPUT      says whether the file OUTPUT is what the row expects, and if not, where they first differ

NAME is the name of a file in crates/transcript_tests/data, with or without `.row`. The exit status is 1 if they differ.
"""
import os
import sys

sys.dont_write_bytecode = True

HERE = os.path.dirname(os.path.abspath(__file__))
sys.path.insert(0, os.path.join(HERE, 'model'))

from rows import WORKED, Difference, Row, behind, show

# how many printed lines are shown before the place where a row and its output first differ, and after it
AROUND = 3


def row_of(name):
    path = os.path.join(WORKED, name.removesuffix('.row') + '.row')
    if not os.path.exists(path):
        raise SystemExit('row.py: there is no row %s in crates/transcript_tests/data' % name)
    return Row(path)


def difference(row, printed):
    """Where the output first differs from the row: how many lines were as expected, and the difference; None if nothing differs."""
    rest = printed
    try:
        for line, wants in row.steps:
            rest = behind(line, wants, rest)
        if rest:
            raise Difference(b'(the end)', [], rest)
    except Difference as found:
        return len(printed) - len(rest), found
    return None


def main(name, output=None):
    row = row_of(name)
    if output is None:
        sys.stdout.buffer.write(b''.join(line + b'\n' for line, _ in row.steps))
        return 0
    with open(output, 'rb') as file:
        printed = file.read().split(b'\n')[:-1]
    found = difference(row, printed)
    if found is None:
        print('%s: as expected' % row.name)
        return 0
    at, parting = found
    print('%s: DIFFERS' % row.name)
    for title, lines in (('after the line', [parting.line]), ('expected', parting.wanted), ('printed', parting.printed[:AROUND + 1]),
                         ('printed before that', printed[max(0, at - AROUND):at])):
        print('  ' + title)
        show(lines)
    return 1


if __name__ == '__main__':
    if not 2 <= len(sys.argv) <= 3:
        raise SystemExit(__doc__)
    sys.exit(main(*sys.argv[1:]))
