#!/usr/bin/env python3
"""Reads crates.txt: prints the crates that some crates depend on, or copies these, so that a check's program can be built on them.
It also reads other files of this repository as texts (`read`).

    crates.py ROOT CRATE...                             prints their lines, and those of all crates below them, in the order of crates.txt
    crates.py ROOT CRATE... --for PROGRAM WORK          copies all these into the folder WORK, and the folder PROGRAM as a crate above them
    crates.py ROOT CRATE... --sources-for PROGRAM WORK  the same, without what these crates have proved already

A crate is below another one if that one depends on it, directly or through others. ROOT is the top folder of a repository. A CRATE that
is not in its crates.txt is a library of the toolchain. PROGRAM contains a file src/main.rt.txt, which becomes src/main.rt in the copy,
WORK/crates/PROGRAM. If WORK has a copy already, its files are replaced, and what was proved in the copy stays.
"""
import os
import shutil
import sys

TOP = os.path.dirname(os.path.dirname(os.path.abspath(__file__)))
HEADING = '# ---- '
OUT = 'out'


def read(path):
    """A text of this repository, by its path from the top folder."""
    with open(os.path.join(TOP, path), encoding='utf-8') as file:
        return file.read()


def lines_of(root):
    with open(os.path.join(root, 'crates.txt'), encoding='utf-8') as table:
        return list(table)


def is_crate(line):
    return ':' in line and not line.startswith('#')


def name_in(line):
    return line.split(':')[0].split()[0]


def table_of(root):
    """The lines of crates.txt by the names of their crates."""
    return {name_in(line): line for line in lines_of(root) if is_crate(line)}


def headings_of(root):
    """The headings of crates.txt in its order, each with the names of the crates under it; '' has those before the first heading."""
    found, crates = {}, None
    for line in lines_of(root):
        if line.startswith(HEADING):
            crates = found.setdefault(line[len(HEADING):].strip(), [])
        elif is_crate(line):
            crates = found.setdefault('', []) if crates is None else crates
            crates.append(name_in(line))
    return found


def below(root, crates):
    """The lines of these crates and of all that they depend on, by name."""
    lines = table_of(root)
    found, rest = set(), list(crates)
    while rest:
        crate = rest.pop()
        if crate in lines and crate not in found:
            found.add(crate)
            rest += lines[crate].split(':')[1].split()
    return {crate: line for crate, line in lines.items() if crate in found}


def copy_crate(source, to, left_out):
    """Copies the folder of a crate. If there is a copy already, all of it is replaced but out/, where the prover keeps what it has proved."""
    if os.path.isdir(to):
        for name in set(os.listdir(to)) - {OUT}:
            path = os.path.join(to, name)
            (shutil.rmtree if os.path.isdir(path) and not os.path.islink(path) else os.remove)(path)
        shutil.copytree(source, to, symlinks=True, ignore=shutil.ignore_patterns(OUT), dirs_exist_ok=True)
    else:
        # A copy that was interrupted does not count as one.
        shutil.rmtree(to + '.new', ignore_errors=True)
        shutil.copytree(source, to + '.new', symlinks=True, ignore=shutil.ignore_patterns(*left_out))
        os.rename(to + '.new', to)


def copy_below(root, crates, program, work, left_out=()):
    """Copies these crates, all that they depend on, and the program, and returns the program's folder."""
    lines = below(root, crates)
    for crate in lines:
        copy_crate(os.path.join(root, 'crates', crate), os.path.join(work, 'crates', crate), left_out)
    name = os.path.basename(os.path.normpath(program))
    folder = os.path.join(work, 'crates', name)
    copy_crate(program, folder, [OUT])
    os.rename(os.path.join(folder, 'src', 'main.rt.txt'), os.path.join(folder, 'src', 'main.rt'))
    shutil.copy(os.path.join(root, 'HANDLES'), work)
    with open(os.path.join(work, 'crates.txt'), 'w', encoding='utf-8') as table:
        table.write(''.join(lines.values()) + '%s: %s\n' % (name, ' '.join(crates)))
    return folder


def main(words):
    if words[-3:-2] == ['--for']:
        copy_below(words[0], words[1:-3], words[-2], words[-1])
    elif words[-3:-2] == ['--sources-for']:
        copy_below(words[0], words[1:-3], words[-2], words[-1], [OUT])
    elif len(words) > 1 and not {'--for', '--sources-for'} & set(words):
        print(''.join(below(words[0], words[1:]).values()), end='')
    else:
        sys.exit(__doc__)


if __name__ == '__main__':
    main(sys.argv[1:])
