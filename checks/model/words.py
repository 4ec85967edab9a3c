"""The words of a line, refusals, and the forms of single arguments."""
import re

# Those error numbers of the protocol that this daemon uses.
ARGUMENT, PERMISSION, UNKNOWN, NOT_THERE, FULL, SYSTEM, UPDATING, SYNC, EXISTS = 2, 4, 5, 50, 51, 52, 54, 55, 56

GREATEST_NUMBER = 4294967295
MOST_ARGUMENTS = 64


class Ack(Exception):
    """A refusal: its error number and its text."""

    def __init__(self, number, text):
        super().__init__(number, text)
        self.number, self.text = number, text


class NoCommand(Ack):
    """A refusal that names no command: the words of the line cannot be separated, or there is no such command."""


def unreadable(text):
    return NoCommand(ARGUMENT, text)


def bad_argument(word):
    return Ack(ARGUMENT, 'bad argument "%s"' % word)


def bad_name(word):
    return Ack(ARGUMENT, 'bad name "%s"' % word)


def bad_index():
    return Ack(ARGUMENT, 'bad song index')


def words_of(line):
    """The words of a line; raises a refusal for the first fault from the left."""
    words, at = [], 0
    while True:
        while at < len(line) and line[at] in ' \t':
            at += 1
        if at == len(line):
            return words
        if len(words) > MOST_ARGUMENTS:
            raise unreadable('too many arguments')
        word, at = quoted_word(line, at + 1) if line[at] == '"' else bare_word(line, at)
        words.append(word)


def bare_word(line, at):
    """The word without quotes that begins here, and the place after it."""
    begin = at
    while at < len(line) and line[at] not in ' \t':
        if line[at] in '"\'' or line[at] < ' ':
            raise unreadable('bad unquoted argument')
        at += 1
    return line[begin:at], at


def quoted_word(line, at):
    """The word whose opening quote is just before this place, and the place after its closing quote."""
    word = []
    while at < len(line) and line[at] != '"':
        if line[at] == '\\':
            at += 1
            if at == len(line):
                break
        word.append(line[at])
        at += 1
    if at == len(line):
        raise unreadable('missing closing quote')
    at += 1
    if at < len(line) and line[at] not in ' \t':
        raise unreadable('missing space after quote')
    return ''.join(word), at


def number_or_none(word):
    """The number that a word is, or None."""
    if not re.fullmatch('[0-9]+', word):
        return None
    digits = word.lstrip('0') or '0'
    if len(digits) > len(str(GREATEST_NUMBER)) or int(digits) > GREATEST_NUMBER:
        return None
    return int(digits)


def number(word):
    value = number_or_none(word)
    if value is None:
        raise bad_argument(word)
    return value


def number_up_to(greatest):
    """The form of a number up to this one."""
    def form(word):
        value = number(word)
        if value > greatest:
            raise bad_argument(word)
        return value
    return form


def one_of(*choices):
    """The form of one of these words."""
    def form(word):
        if word not in choices:
            raise bad_argument(word)
        return word
    return form


def boolean(word):
    return one_of('0', '1')(word) == '1'


def text(word):
    """Any word."""
    return word


def uri(word):
    """The form of a URI: one slash at its end is removed."""
    return word[:-1] if word.endswith('/') else word


class Range:
    """The places from `start` to before `end`, which is None for an open range; or a single place."""

    def __init__(self, start, end, lone):
        self.start, self.end, self.lone = start, end, lone

    def within(self, length):
        """Where the range begins and ends in a list of this length."""
        if self.start > length or (self.lone and self.start == length):
            raise bad_index()
        end = length if self.end is None else min(self.end, length)
        return self.start, end


def span(word):
    """The form of a single place or a range."""
    start, colon, end = word.partition(':')
    first = number_or_none(start)
    last = number_or_none(end) if end else None
    if first is None or (end and last is None) or (end and first > last):
        raise bad_argument(word)
    return Range(first, last, False) if colon else Range(first, first + 1, True)


def window(word):
    """The form of a window: a range with both ends."""
    found = span(word)
    if found.lone or found.end is None:
        raise bad_argument(word)
    return found


def milliseconds(word):
    """The form of a time in seconds, of which three decimals are kept."""
    found = re.fullmatch(r'([0-9]{1,9})(?:\.([0-9]+))?', word)
    if not found:
        raise bad_argument(word)
    return int(found[1]) * 1000 + int(((found[2] or '') + '000')[:3])


def signed(form):
    """The form of an optional sign, and of what follows it."""
    def read(word):
        sign = word[:1] if word[:1] in ('+', '-') else ''
        try:
            return sign, form(word[len(sign):])
        except Ack:
            raise bad_argument(word) from None
    return read


# A place in the queue, counted from its beginning, or with a sign from the current song.
position = signed(number)
