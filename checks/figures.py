#!/usr/bin/env python3
"""Runs the commands in docs/GATE.md and docs/PERFORMANCE.md, and writes below each what it printed.

    checks/figures.py [--list] [WORD...]

A block that begins with `$ COMMAND` holds a command, which is run at the top of the repository, and what it printed the last time.
With WORDs, only the commands that contain one of them are run; --list prints all commands and runs none. If a command fails, its output
is written all the same, so that the document shows it, and the exit status is 1. Every command except those of the gate needs the built
program, and a machine that has nothing else to do.
"""
import os
import re
import subprocess
import sys

sys.dont_write_bytecode = True

from crates import TOP, read

DOCUMENTS = ('docs/GATE.md', 'docs/PERFORMANCE.md')
BLOCK = re.compile(r'^    \$ (.+)\n((?:(?:    .*)?\n)*?)(?=\S|\Z)', re.M)


def printed_by(command):
    """Runs a command: whether it failed, and what it printed, as lines of a block."""
    ran = subprocess.run(['bash', '-c', command], cwd=TOP, stdout=subprocess.PIPE, stderr=subprocess.STDOUT, text=True, errors='replace')
    lines = [('    ' + line).rstrip() for line in ran.stdout.strip('\n').splitlines()]
    return ran.returncode != 0, '\n'.join(lines)


def run_in(path, words):
    """Runs the chosen commands of a document, and returns how many failed."""
    failed = 0
    for command in [found[1] for found in BLOCK.finditer(read(path))]:
        if words and not any(word in command for word in words):
            continue
        print('%s: %s' % (path, command), flush=True)
        has_failed, printed = printed_by(command)
        failed += has_failed
        block = '    $ %s\n%s\n\n' % (command, printed)
        text = BLOCK.sub(lambda found: block if found[1] == command else found[0], read(path))
        with open(os.path.join(TOP, path), 'w', encoding='utf-8') as file:
            file.write(text.rstrip('\n') + '\n')
    return failed


def main(words):
    if '--list' in words:
        print('\n'.join(found[1] for path in DOCUMENTS for found in BLOCK.finditer(read(path))))
        return 0
    return 1 if sum(run_in(path, words) for path in DOCUMENTS) else 0


if __name__ == '__main__':
    sys.exit(main(sys.argv[1:]))
