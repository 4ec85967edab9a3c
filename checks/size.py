#!/usr/bin/env python3
"""Shows what takes the space in the program and its package: bytes by part, and by library.

    checks/size.py [PROGRAM]

The second number of a part is its size when compressed with xz, which is about what it takes in the package. Which library a piece of code
belongs to is known from its symbol, which names the crate; a generic function belongs to the crate that defines it, such as `std_alloc`,
not to the one that uses it. This needs binutils and xz. packaging/deb refuses a package that is above the limit.
"""
import collections
import os
import re
import subprocess
import sys
import tempfile

sys.dont_write_bytecode = True
sys.path.insert(0, os.path.join(os.path.dirname(os.path.abspath(__file__)), 'serve'))

from crates import table_of
from daemon import ROOT, arguments_of, program_of

DEB = os.path.join(ROOT, 'packaging', 'deb')
PARTS = [('machine code', ('.text',)), ('constants', ('.rodata', '.data.rel.ro', '.data')),
         ('tables for unwinding', ('.eh_frame', '.eh_frame_hdr'))]
GROUPS = [('the SQL store', r'sqlite'), ('vectors, strings, maps', r'std_(?:alloc|collections|heap)$'),
          ('files, threads, texts', r'(?:core|std|std_io|io|os|libc)$'), ('the command line', r'(?:clap|strsim)$'),
          ('settings', r'(?:toml|serde)'), ('case of letters', r'(?:caseless|ucd_|unicode)')]


def told_by(*words):
    return subprocess.run(words, check=True, stdout=subprocess.PIPE, text=True).stdout


def limit():
    with open(DEB) as script:
        return int(re.search(r'(?m)^most=(\d+)', script.read()).group(1))


def pressed(path, *filters):
    done = subprocess.run(['xz', '--format=raw', *filters, '--lzma2=preset=9e', '--stdout', path], check=True, stdout=subprocess.PIPE)
    return len(done.stdout)


def parts_of(program, folder):
    """Each part of the stripped program with its size and its compressed size, then what is left, and the whole."""
    whole = os.path.join(folder, 'whole')
    subprocess.run(['strip', '-R', '.comment', '-R', '.note', '-o', whole, program], check=True)
    rows, rest = [], [os.path.getsize(whole), pressed(whole, '--x86')]
    total = list(rest)
    for name, sections in PARTS:
        path = os.path.join(folder, 'part')
        words = [word for section in sections for word in ('--only-section', section)]
        subprocess.run(['objcopy', '-O', 'binary', *words, whole, path], check=True)
        filters = ['--x86'] if sections == ('.text',) else []
        row = [sum(size for section, size in sections_of(whole) if section in sections), pressed(path, *filters)]
        rows.append((name, *row))
        rest = [rest[at] - row[at] for at in (0, 1)]
    return rows + [('the rest', *rest), ('the program', *total)]


def sections_of(path):
    for line in told_by('readelf', '-SW', path).splitlines():
        found = re.match(r'\s*\[ *\d+\] (\S+) +\S+ +[0-9a-f]+ [0-9a-f]+ ([0-9a-f]+)', line)
        if found:
            yield found.group(1), int(found.group(2), 16)


def group_of(symbol, own):
    crate = symbol.split('::')[0]
    if crate in own:
        return 'music_daemon'
    return next((name for name, words in GROUPS if re.match(words, crate)), crate if '::' in symbol else 'start-up and exit')


def code_of(program):
    """How many bytes of code each group has, the largest first."""
    own, sizes = table_of(ROOT), collections.Counter()
    for line in told_by('nm', '--print-size', '--defined-only', program).splitlines():
        fields = line.split(None, 3)
        if len(fields) == 4 and fields[2] in 'tTwW':
            sizes[group_of(fields[3], own)] += int(fields[1], 16)
    return sizes.most_common()


def main():
    parser = arguments_of('Shows what takes the space in the program and its package.')
    program = program_of(parser.parse_args().program)
    with tempfile.TemporaryDirectory() as folder:
        package = os.path.join(folder, 'it.deb')
        made = subprocess.run([DEB, program, package], stdout=subprocess.PIPE, stderr=subprocess.STDOUT, text=True)
        size = os.path.getsize(package) if made.returncode == 0 else None
        print('The package: %s bytes, at most %s' % ('{:,}'.format(size), '{:,}'.format(limit())) if size else made.stdout.strip())
        print('  %-26s %10s %10s' % ('part', 'bytes', 'compressed'))
        for row in parts_of(program, folder):
            print('  %-26s %10s %10s' % (row[0], *map('{:,}'.format, row[1:])))
    code = code_of(program)
    total = sum(size for _, size in code)
    print('The code, by library')
    for name, size in code:
        if size * 100 >= total:
            print('  %-26s %10s %9.0f%%' % (name, '{:,}'.format(size), 100 * size / total))
    return 0 if size else 1


if __name__ == '__main__':
    sys.exit(main())
