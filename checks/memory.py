"""Refused memory: in each run one allocation of the program fails: in the first run the first one, in the second run the second, and
so on."""
import re

from program import MOST_FAILURES, show_failures
from rows import input_of, output_of, sessions, worked

CLIENTS = [b'%d%c' % (number, end) for number in range(1, 10) for end in b' \n']
RIGHT, LINE, STEP, FOLD, ENDED, FAILED = 'right', 'line refused', 'step refused', 'fold refused', 'run ended', 'FAILED'
SORTS = RIGHT, LINE, STEP, FOLD, ENDED, FAILED

# Here each event except the first needs a fold before it. NOT_FOLDED is printed if the fold before `add c.wav` gets no memory.
FOLDS = (b'! limit history 1\n! song a.wav 8000\n! song b.wav 16000\n! song c.wav 24000\n'
         b'1 add a.wav\n1 add b.wav\n1 add c.wav\n! window\n1 status\n')
STATUS = b''.join(b'1 %s: 0\n' % mode for mode in (b'repeat', b'random', b'single', b'consume'))
NOT_FOLDED = (b'1 OK MPD 0.23.0\n1 OK\n1 OK\n1 ACK [52@0] {add} history full\n! window 1 3\n'
              b'1 volume: 100\n' + STATUS + b'1 partition: default\n1 playlist: 3\n1 playlistlength: 2\n1 state: stop\n1 OK\n')


def rest_of(program, steps, place, instead):
    """What the steps after a place print if these steps replace the one at the place."""
    lines = [line for line, _ in steps]
    others = [line for line, _ in instead]
    output = program.run(b''.join(lines[:place] + others + lines[place + 1:])).output
    front = output_of(steps[:place] + instead)
    return output[len(front):] if output.startswith(front) else b'(the output begins differently)'


def most_of(steps):
    """How many events the window holds at most, if a step sets that."""
    return next((line.split()[3] for line, _ in steps if line.startswith(b'! limit history ')), b'')


def outputs(front, refusal, rest, most, sort):
    """The right outputs, each with its sort, if this line was refused. If there was no memory to fold a full window, it stays full;
    if the window was folded, and memory was short only after that, it is empty until the next event."""
    right = {front + refusal + b'out of memory\n' + rest: sort}
    if most:
        folded = re.sub(rb'\A! window %s ' % most, b'! window 0 ', rest)
        right.update({front + refusal + b'out of memory\n' + folded: sort, front + refusal + b'history full\n' + rest: FOLD})
    return right


def refusals(program, steps, place):
    """The right outputs if this one step was refused memory: all later answers are as if the step had not come."""
    line, printed = steps[place]
    if not line.startswith((b'! ', *CLIENTS)):
        return {}
    most, before, rest = most_of(steps), output_of(steps[:place]), rest_of(program, steps, place, [])
    if line.startswith(b'! '):
        return outputs(before, b'! refused ', rest, most, STEP)
    client, words, right = line[:1], line[1:].replace(b'"', b'').split(), {}
    refused = [client + b' ACK [52@0] {' + name + b'} ' for name in (b'', *words[:1])]
    greeting = client + b' OK MPD 0.23.0\n'
    if not printed.startswith(greeting):
        for refusal in refused:
            right.update(outputs(before, refusal, rest, most, LINE))
        return right
    # This line connects its client. If there was no memory to connect it, the greeting comes with a later line; if there was none for
    # the line, the client is connected all the same, as it would be by an empty list, which is not an event.
    empty = [(client + b' command_list_begin\n', greeting), (client + b' command_list_end\n', client + b' OK\n')]
    connected = rest_of(program, steps, place, empty)
    right.update(outputs(before, refused[0], rest, most, LINE))
    for refusal in refused:
        right.update(outputs(before + greeting, refusal, connected, most, LINE))
    return right


def begin_of(steps, client, place):
    """Where the command list begins that is open at a place; the place itself if no list is open."""
    begin = place
    for at, (line, _) in enumerate(steps[:place]):
        if is_list_word(line, client, b'end'):
            begin = place
        elif begin == place and (is_list_word(line, client, b'begin') or is_list_word(line, client, b'ok_begin')):
            begin = at
    return begin


def is_list_word(line, client, word):
    """Whether the line is just this list command; spaces around it do not matter."""
    return line.startswith(client) and line[len(client):].strip() == b'command_list_' + word


def list_refusals(program, steps, place):
    """The right outputs if this step ends a list, and a command in the list was refused memory: the commands before it were run, and
    remain in effect."""
    end, most = steps[place][0], most_of(steps)
    client = end[:2]
    if not is_list_word(end, client, b'end'):
        return {}
    begin = begin_of(steps, client, place)
    inside = [at for at in range(begin + 1, place) if steps[at][0].startswith((client, client[:1] + b'\n'))]
    right = {}
    for count, first in enumerate(inside):
        cut = set(inside[count:])
        lines = [(at, line) for at, (line, _) in enumerate(steps) if at not in cut]
        before = program.run(b''.join(line for at, line in lines if at < place)).output
        upto = program.run(b''.join(line for at, line in lines if at <= place)).output
        whole = program.run(b''.join(line for _, line in lines)).output
        answers, _, notices = upto[len(before):].rpartition(client + b'OK\n')
        for name in (b'', *steps[first][0][2:].split()[:1]):
            refusal = client + b'ACK [52@%d] {%s} ' % (count, name)
            right.update(outputs(before + answers, refusal, notices + whole[len(upto):], most, LINE))
    return right


def sort_of(run, full, refused):
    """Which sort a run is of; `refused` has the right outputs with a refusal, each with its sort."""
    if run.status == 0 and not run.errors:
        return RIGHT if run.output == full else refused.get(run.output, FAILED)
    if run.status == 1 and run.errors == b'music_daemon: out of memory\n' and full.startswith(run.output):
        return ENDED
    return FAILED


def check_session(program, steps, folds):
    """Refuses each allocation of a session in turn: how many runs were of each sort, and what failed. If `folds`, some run must be one
    in which a fold is refused memory."""
    data, full = input_of(steps), output_of(steps)
    refused = {}
    for place in range(len(steps)):
        refused.update(refusals(program, steps, place))
        refused.update(list_refusals(program, steps, place))
    sorts = dict.fromkeys(SORTS, 0)
    failures, number, none_refused = [], 0, False
    while not none_refused and len(failures) < MOST_FAILURES:
        number += 1
        run = program.run_with(data, allocation=number)
        none_refused = bool(run.counts) and run.counts['allocations'] < number
        sort = sort_of(run, full, refused)
        if none_refused and sort != RIGHT:
            sort = FAILED
        sorts[sort] += 1
        if sort == FAILED:
            failures.append('allocation %d refused: %s' % (number, run.told(full)))
    if folds and not sorts[FOLD]:
        failures.append('in no run was a fold refused memory')
    return sorts, failures


def check_fold(program):
    """Looks for the run in which that one fold is refused memory: returns 0 if there is one, otherwise 1."""
    number = 1
    run = program.run_with(FOLDS, allocation=number)
    while run.output != NOT_FOLDED and not (run.counts and run.counts['allocations'] < number):
        number += 1
        run = program.run_with(FOLDS, allocation=number)
    found = run.output == NOT_FOLDED and run.status == 0
    print('  the fold before `add c.wav` is refused: ' + ('as expected, at allocation %d' % number if found else 'in no run  FAILED'))
    return int(not found)


def check(program):
    """Prints a table, and returns the number of failures."""
    print('Refused memory: in each run one allocation is refused, except in the last run of each session')
    print('  %-48s %6s %6s %13s %13s %13s %10s %7s' % ('session', 'runs', *SORTS))
    failed = check_fold(program)
    for name, steps in sessions():
        failed += show(name, *check_session(program, steps, bool(most_of(steps))))
    for name, steps in worked(program):
        failed += show(name, *check_session(program, steps, False))
    return failed


def show(name, sorts, failures):
    print('  %-48s %6d %6d %13d %13d %13d %10d %7d' % (name, sum(sorts.values()), *sorts.values()))
    return show_failures(failures)
