#!/usr/bin/env python3
"""Refuses memory in the built tests of crates: each allocation of each test is refused in turn (if a test makes more than 2,000, then 2,000
of them, evenly spread). Each time the test must end by itself, and either pass or fail because it has run out of memory.

    checks/test_memory.py CRATE...

CRATEs are crates of tests that `rt test` has built, which leaves the tests in the crate's folder `out`.
"""
import collections
import os
import subprocess
import sys
import tempfile

sys.dont_write_bytecode = True

from program import build_library, counts_in

HERE = os.path.dirname(os.path.abspath(__file__))
MOST = 2000  # how many allocations of a test are refused at most
WANTS = ('AllocError', 'AllocFailed', 'NoMemory', 'OutOfMemory')


def names_of(binary):
    lines = subprocess.run([binary, '--list'], check=True, capture_output=True, text=True).stdout.splitlines()
    return [line.strip().removesuffix(': test') for line in lines if line.strip().endswith(': test')]


def run(binary, name, library, report, allocation):
    environment = dict(os.environ, LD_PRELOAD=library, FAULTY_REPORT=report, FAULTY_ALLOCATION=str(allocation))
    return subprocess.run([binary, name], capture_output=True, text=True, env=environment)


def sort_of(ended):
    if ended.returncode == 0:
        return 'passed'
    return 'out of memory' if any(word in ended.stdout + ended.stderr for word in WANTS) else 'FAILED'


def check(crate, library, folder):
    binary = os.path.join(os.path.dirname(HERE), 'crates', crate, 'out', crate + '_tests')
    report, failed = os.path.join(folder, 'report'), 0
    for name in names_of(binary):
        whole = run(binary, name, library, report, 0)
        count = counts_in(report)['allocations']
        sorts = collections.Counter(sort_of(run(binary, name, library, report, place)) for place in range(1, count + 1, -(-count // MOST) or 1))
        failed += sorts['FAILED'] + (whole.returncode != 0)
        print('%-14s %-44s %5d allocations: %s' % (crate, name, count, ', '.join('%s %d' % sort for sort in sorted(sorts.items()))))
    return failed


def main():
    with tempfile.TemporaryDirectory() as folder:
        library = build_library(folder)
        failed = sum(check(crate, library, folder) for crate in sys.argv[1:])
    print('%d failed' % failed)
    return 1 if failed else 0


sys.exit(main())
