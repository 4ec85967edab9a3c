"""Sessions for the checks, with their expected output. A session is a list of steps: an input line, and what it must print."""
import os
import re

HERE = os.path.dirname(os.path.abspath(__file__))
FOLDER = os.path.join(HERE, 'rows')
WORKED = os.path.join(os.path.dirname(HERE), 'crates', 'transcript_tests', 'data')
# A line of a client that no row uses, and that never waits: it gets the same answer wherever it is put into a row.
LONG_LINE = (b'8 add ' + b'x' * 16000 + b'\n', b'8 ACK [50@0] {add} no such song\n')
GREETED = (LONG_LINE[0], b'8 OK MPD 0.23.0\n' + LONG_LINE[1])


def read_row(name):
    """The steps of a row. Of the notation of rows, this understands only `> LINE`, and `< LINE` with the exact output."""
    steps = []
    with open(os.path.join(FOLDER, name), 'rb') as row:
        for line in row:
            if line.startswith(b'> '):
                steps.append((line[2:], b''))
            elif line.startswith(b'< '):
                steps[-1] = (steps[-1][0], steps[-1][1] + line[2:])
            elif line.strip() and not line.startswith((b'#', b'since: ', b'until: ', b'again: ')):
                raise SystemExit('%s: these checks do not understand the line %r' % (name, line))
    return steps


def sessions():
    """Each row, and the same row with a long line after each line of a client, so that the program reads it in several pieces of
    16 KiB. A row that shows the history's window is used only as it is."""
    found = []
    for name in sorted(os.listdir(FOLDER)):
        steps = read_row(name)
        if any(line.startswith(b'8') for line, _ in steps):
            raise SystemExit('%s: client 8 is needed for the long lines' % name)
        found.append((name[:-len('.row')], steps))
        if b'! window\n' in [line for line, _ in steps]:
            continue  # a long line is an event, which `! window` would count
        longer, here = [], False
        for step in steps:
            longer.append(step)
            if here or b' OK MPD ' in step[1]:
                longer.append(LONG_LINE if here else GREETED)
                here = True
        found.append(('.. with long lines', longer))
    return found


def input_of(steps):
    return b''.join(line for line, _ in steps)


def output_of(steps):
    return b''.join(printed for _, printed in steps)


def unescaped(line):
    """A line that a row gives with `>e`, its escapes replaced: \\r, \\t, \\\\, \\xHH, and \\{TEXT*N}, which is TEXT repeated N times."""
    line = re.sub(rb'\\\{(.*?)\*(\d+)\}', lambda it: it[1] * int(it[2]), line)
    one = {b'r': b'\r', b't': b'\t', b'\\': b'\\'}
    return re.sub(rb'\\(?:x([0-9a-f]{2})|(.))', lambda it: bytes.fromhex(it[1].decode()) if it[1] else one[it[2]], line)


def worked(program):
    """Each worked row, and the row once more for each `again:` in its head, with the line that this gives put in front. The gate checks
    that the program prints what the row expects; here a run without faults tells what each line prints."""
    for name in sorted(it for it in os.listdir(WORKED) if it.endswith('.row')):
        lines, fronts = [], [b'']
        with open(os.path.join(WORKED, name), 'rb') as row:
            for line in row:
                if line.startswith(b'> '):
                    lines.append(line[2:])
                elif line.startswith(b'>e '):
                    lines.append(unescaped(line[3:]))
                elif line.startswith(b'again: '):
                    fronts.append(line.split(b' ', 2)[2])
        for front in fronts:
            steps, printed = [], b''
            for line in [front, *lines] if front else lines:
                output = program.run(input_of(steps) + line).output
                steps.append((line, output[len(printed):]))
                printed = output
            yield name[:-len('.row')] + (' again' if front else ''), steps
