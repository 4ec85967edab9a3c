"""Reads worked rows, and compares an output with what a row expects.

    rows.py [FILE or FOLDER ...]     checks that the model answers each row as it expects; by default those in crates/transcript_tests/data

Each row is run as it is, and once more for each line `again:` in its head, with the line that this gives put in front. No program is needed."""
import os
import re
import sys

sys.dont_write_bytecode = True

from script import LONGEST_LINE, Script

HERE = os.path.dirname(os.path.abspath(__file__))
WORKED = os.path.join(HERE, '..', '..', 'crates', 'transcript_tests', 'data')
ESCAPES = {b'r': b'\r', b't': b'\t', b'\\': b'\\'}


def unescaped(line):
    r"""A line that a row gives with `>e` or `<e`, its escapes replaced: \r, \t, \\, \xHH, and \{TEXT*N}, which is TEXT repeated N times."""
    line = re.sub(rb'\\\{(.*?)\*(\d+)\}', lambda it: it[1] * int(it[2]), line)
    return re.sub(rb'\\(?:x([0-9a-f]{2})|(.))', lambda it: bytes.fromhex(it[1].decode()) if it[1] else ESCAPES[it[2]], line)


class Row:
    """The input lines of a row, each with what it must print, as pairs of a mark and a text."""

    def __init__(self, path):
        self.name = os.path.basename(path)
        self.steps, self.fronts = [], [None]
        with open(path, 'rb') as file:
            for line in file.read().split(b'\n'):
                self.read(line)

    def read(self, line):
        if not line or line.startswith((b'#', b'since: ', b'until: ')):
            return
        if line.startswith(b'again: '):
            self.fronts.append(line.split(b' ', 2)[2])
        elif line.startswith(b'>e '):
            self.steps.append((unescaped(line[3:]), []))
        elif line == b'>' or line.startswith(b'> '):
            self.steps.append((line[2:], []))
        else:
            mark, _, text = line.partition(b' ')
            if mark not in (b'<', b'<e', b'<~', b'<!', b'<*') or not self.steps:
                raise SystemExit('%s: this is not a line of a row: %r' % (self.name, line))
            self.steps[-1][1].append((b'<', unescaped(text)) if mark == b'<e' else (mark, text))

    def steps_behind(self, front):
        return self.steps if front is None else [(front, []), *self.steps]


class Difference(Exception):
    """What an input line printed is not what its row expects."""

    def __init__(self, line, wanted, printed):
        super().__init__(line, wanted, printed)
        self.line, self.wanted, self.printed = line, wanted, printed


def answer_length(line, printed):
    """How many of these lines are the answer to an input line: those up to the end of a client's answer, or one line for a step."""
    speaker = line[:1]
    if not speaker.isdigit():
        return 1 if printed else 0
    for number, it in enumerate(printed):
        if it == speaker + b' OK' or it.startswith(speaker + b' ACK ['):
            return number + 1
    return len(printed)


def has_in_order(answer, wanted):
    rest = iter(answer)
    return all(any(it == line for it in rest) for line in wanted)


def rest_behind(line, wants, printed):
    """The lines that are left after those that `wants` describes. Either all of `wants` are exact lines, or all are about one answer."""
    if wants[0][0] == b'<':
        exact = [text for _, text in wants]
        if printed[:len(exact)] != exact:
            raise Difference(line, exact, printed)
        return printed[len(exact):]
    length = answer_length(line, printed)
    answer = printed[:length]
    if length == 0:
        raise Difference(line, [b'an answer'], printed)
    if (b'<*', b'') not in wants:
        named = [text for mark, text in wants if mark == b'<~']
        refused = answer[-1].startswith(line[:1] + b' ACK [') and answer[-1] not in named
        lacked = any(it.startswith(text) for mark, text in wants if mark == b'<!' for it in answer)
        if refused or lacked or not has_in_order(answer, named):
            raise Difference(line, [mark + b' ' + text for mark, text in wants], answer)
    return printed[length:]


def behind(line, wants, printed):
    """The lines that are left after what an input line printed; raises a Difference if this is not what the row expects."""
    groups = []
    for want in wants:
        if groups and (groups[-1][-1][0] == b'<') == (want[0] == b'<'):
            groups[-1].append(want)
        else:
            groups.append([want])
    rest = printed
    for group in groups:
        rest = rest_behind(line, group, rest)
    return rest


def compare(line, wants, printed):
    """Raises a Difference if these lines, which are all that an input line printed, are not what the row expects."""
    if behind(line, wants, printed):
        raise Difference(line, [text for _, text in wants], printed)


def model_pieces(lines):
    """What the model prints for each of these lines; a line that is too long ends the script."""
    script = Script()
    for line in lines:
        yield script.run(line + b'\n').split(b'\n')[:-1]
        if len(line) > LONGEST_LINE:
            return


def check(row, front):
    """The difference between a row and the model, or None."""
    steps = row.steps_behind(front)
    pieces = list(model_pieces([line for line, _ in steps]))
    try:
        for (line, wants), printed in zip(steps, pieces + [[]] * len(steps)):
            compare(line, wants, printed)
    except Difference as difference:
        return difference
    return None


def show(lines):
    for line in lines or [b'(nothing)']:
        text = line.decode('utf-8', 'backslashreplace')
        print('    ' + (text if len(text) <= 200 else text[:200] + ' ..'))


def files_of(places):
    for place in places:
        if os.path.isdir(place):
            yield from sorted(os.path.join(place, name) for name in os.listdir(place) if name.endswith('.row'))
        else:
            yield place


def check_all(places):
    """Prints each difference, and returns how many runs of rows there were, and how many of them differed."""
    runs = differed = 0
    for path in files_of(places):
        row = Row(path)
        for front in row.fronts:
            runs += 1
            difference = check(row, front)
            if difference:
                differed += 1
                print('%s%s' % (row.name, ', with %s in front' % front.decode() if front else ''))
                for title, lines in (('line', [difference.line]), ('expected', difference.wanted), ('printed', difference.printed)):
                    print('  ' + title)
                    show(lines)
    return runs, differed


def main(places):
    runs, differed = check_all(places or [WORKED])
    print('worked rows: %d runs agree, %d differ' % (runs - differed, differed))
    return 1 if differed else 0


if __name__ == '__main__':
    sys.exit(main(sys.argv[1:]))
