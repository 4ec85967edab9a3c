"""The forms that answers and refusals may have, and the shape of an answer, which is what is left of it without numbers and texts."""
import re

CODES = {1, 2, 3, 4, 5, 50, 51, 52, 53, 54, 55, 56}
ACK = re.compile(r'ACK \[(\d+)@\d+\] \{([a-z_]*)\} \S')
PAIR = re.compile(r'(?:\d+:)?[A-Za-z][A-Za-z_.-]*: ')
GREETING = 'OK MPD 0.23.0'
# the pairs whose values are words of the protocol
WORDS = {'state', 'single', 'consume', 'changed', 'repeat', 'random', 'sticker', 'replay_gain_mode', 'outputenabled', 'command', 'tagtype'}
KEYS = {'', 'music', 'listen', 'state', 'shelf', 'rate', 'kill', 'everyday', 'random_start', 'history', 'ring', 'output'}
STEP = re.compile(r'! (?:bad|ok|none|stale|ended|refused [a-z ]+|job [\d a-z]+|feed [\d ]+|live [\d a-z]+|window \d+ \d+)$')

# what the program says if it refuses to start
STARTS = ['cannot read ', 'bad setting ', 'cannot open shelf$', 'cannot read folder ', 'too many songs$', 'cannot listen at ', 'write fault$', 'history full$',
          'player limit reached$']
REFUSAL = re.compile('music_daemon: (?:%s)' % '|'.join(STARTS))
# what it may print on standard error at a good start
REMARK = re.compile(r'music_daemon: (?:version |scan(?: in \d+ ms)?: |state: |end: |the state with refused lines cannot be kept$)')


class Fault(Exception):
    """Something that a run must not do. Two faults count as the same if they have the same kind."""

    def __init__(self, kind, told):
        super().__init__('%s: %s' % (kind, told) if told else kind)
        self.kind = kind


def check_answer_line(line):
    """Raises a fault if this is not a line of an answer."""
    if line in ('OK', 'list_OK', GREETING) or PAIR.match(line):
        return
    found = ACK.match(line)
    if not found or int(found[1]) not in CODES:
        raise Fault('not a line of an answer', repr(line[:200]))


def check_step_line(line):
    """Raises a fault if this is not a line that a script may print."""
    if line[:2] == '! ':
        if not STEP.match(line):
            raise Fault('not a line of a step', repr(line[:200]))
    elif re.match('[1-9] ', line):
        if line[2:] != 'closed':
            check_answer_line(line[2:])
    else:
        raise Fault('not a line of a script', repr(line[:200]))


def shape_of_refusal(text):
    """What the program says on standard error, without the names and lines that it quotes."""
    if text.startswith('bad setting '):
        return text if text[len('bad setting '):] in KEYS else 'bad setting'
    if text.startswith('state: '):
        return 'state: ' + text.rpartition(': ')[2]
    return ' '.join(text.split(' ')[:3]) + text.rpartition(', ')[2][:40] * (', ' in text)


def shape_of(line):
    """A line without its numbers and texts."""
    key, colon, value = line.partition(': ')
    if key == 'music_daemon':
        return 'said: ' + re.sub(r'\d+', '0', re.sub(r'".*"', '""', shape_of_refusal(value)))[:120]
    word = key.split(' ')[-1]
    if colon and re.fullmatch('[A-Za-z_]+', word) and word not in WORDS:
        value = '0' if value.replace('.', '').isdigit() else ''
    text = re.sub(r'".*"', '""', key + colon + value)
    return re.sub(r'\d+', '0', text)[:120]


def shapes_of(lines, of_pairs=False):
    """The shapes of an answer: of each line, and of all lines together; for a script, of each two neighbours instead of all together."""
    shapes = [shape_of(line) for line in lines]
    apart = [shape for number, shape in enumerate(shapes) if shape != shapes[number - 1] or number == 0]
    if of_pairs:
        return set(shapes) | set(zip(apart, apart[1:]))
    return set(shapes) | {tuple(apart[:12])}
