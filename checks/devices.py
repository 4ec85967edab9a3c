"""Failing devices: in each run, one read or one write of the program fails."""
import os

from program import MOST_FAILURES, PIPE, show_failures
from rows import FOLDER, input_of, output_of, sessions


def fails_as(run, fault):
    return run.status == 1 and run.errors == b'music_daemon: ' + fault + b' fault\n'


def check_whole(program, steps, piece):
    """Checks that everything is written if nothing fails, in whatever pieces the bytes are read and written."""
    run = program.run_with(input_of(steps), piece=piece)
    right = run.status == 0 and not run.errors and run.output == output_of(steps)
    return [] if right else ['no fault: ' + run.told(output_of(steps))]


def check_reads(program, steps, piece):
    """Checks that after a failed read the output is that of the lines which were read before, and that nothing more is read."""
    data, failures, number = input_of(steps), [], 0
    while len(failures) < MOST_FAILURES:
        number += 1
        run = program.run_with(data, piece=piece, read=number)
        if run.counts and run.counts['reads'] < number:
            break
        lines = data[:run.counts.get('bytes_read', 0)].count(b'\n')
        wanted = output_of(steps[:lines])
        right = run.output == wanted and run.counts.get('reads') == number
        if not (right and fails_as(run, b'read')):
            failures.append('read %d fails: %s' % (number, run.told(wanted)))
    return number - 1, failures


def check_writes(program, steps, piece):
    """Checks that after a failed write the beginning of the output has been written, and that no write is tried again."""
    data, full, failures, number = input_of(steps), output_of(steps), [], 0
    while len(failures) < MOST_FAILURES:
        number += 1
        run = program.run_with(data, piece=piece, write=number)
        if run.counts and run.counts['writes'] < number:
            break
        right = full.startswith(run.output) and run.counts.get('writes') == number
        if not (right and fails_as(run, b'write')):
            failures.append('write %d fails: %s' % (number, run.told(full)))
    return number - 1, failures


def check_system(program):
    """Real failures, without the library: a folder as input, and a full device as output."""
    failures = []
    folder = os.open(FOLDER, os.O_RDONLY)
    run = program.run_on(folder, PIPE)
    os.close(folder)
    if not fails_as(run, b'read') or run.output:
        failures.append('a folder as input: ' + run.told())
    with open(os.path.join(FOLDER, os.listdir(FOLDER)[0]), 'rb') as script, open('/dev/full', 'wb') as full:
        run = program.run_on(script, full)
    if not fails_as(run, b'write'):
        failures.append('a full device as output: ' + run.told())
    return failures


def check(program):
    """Prints a table, and returns the number of failures."""
    print('Failing devices: one read or one write of each run fails')
    print('  %-32s %14s %12s %12s %7s' % ('session', 'bytes a call', 'reads', 'writes', 'FAILED'))
    failed = 0
    for name, steps in sessions():
        for piece in (7 if len(input_of(steps)) < 10000 else 1000, 0):
            failures = check_whole(program, steps, piece)
            reads, of_reads = check_reads(program, steps, piece)
            writes, of_writes = check_writes(program, steps, piece)
            failures += of_reads + of_writes
            print('  %-32s %14s %12d %12d %7d' % (name, piece or 'all', reads, writes, len(failures)))
            failed += show_failures(failures)
    failures = check_system(program)
    print('  %-32s %14s %12d %12d %7d' % ('reads a folder; a full device', '', 1, 1, len(failures)))
    return failed + show_failures(failures)
