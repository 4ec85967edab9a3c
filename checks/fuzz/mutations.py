"""Mutations of an input: other bits, lengths, numbers or words, pieces of other inputs, and pieces that are removed or repeated."""
import re
import struct

MOST_STEPS = 6      # how many changes are made to an input at most
LONGEST_RUN = 300   # how often a piece is repeated at most
NUMBERS = [b'0', b'1', b'-1', b'00', b'1.', b'.5', b'1.5', b'1e9', b'nan', b'99', b'100', b'101', b'255', b'256', b'1023', b'1024', b'16384', b'16385',
           b'65535', b'65536', b'65537', b'2147483647', b'2147483648', b'4294967295', b'4294967296', b'9223372036854775807',
           b'9223372036854775808', b'18446744073709551615', b'18446744073709551616', b'9' * 40, b'0:', b':', b'1:0', b'0:4294967295', b'+1', b'-0']
# numbers that are put into fields of one, two and four bytes
FIELDS = {1: [0, 1, 0x0a, 0x20, 0x22, 0x5c, 0x7f, 0x80, 0xbf, 0xc0, 0xed, 0xf4, 0xff],
          2: [0, 1, 2, 3, 8, 16, 24, 32, 0x7fff, 0x8000, 0xfffe, 0xffff],
          4: [0, 1, 2, 7, 8, 15, 16, 17, 40, 255, 4096, 8000, 44100, 0x7fffffff, 0x80000000, 0xfffffff0, 0xfffffffe, 0xffffffff]}
TEXTS = [b'', b' ', b'\t', b'\r', b'"', b'\\', b'\'', b'\\"', b'\0', b'\x7f', b'\xff', b'\xc3', b'\xc3\xa9', b'\xe2\x84\xaa', b'\xc4\xb0', b'\xed\xa0\x80',
         b'\xf0\x9f\x8e\xb5', b'\xf4\x90\x80\x80', b'\xef\xbb\xbf', b'(', b')', b'((', b'!(', b'=', b':', b'-', b'/', b'//', b'..', b'#', b'[', b']', b'%s']


def place(draw, data):
    return draw.randint(0, len(data))


def piece(draw, data):
    """Where a piece begins and ends; most pieces are short."""
    begin = place(draw, data)
    longest = len(data) - begin
    return begin, begin + draw.randint(0, min(longest, draw.choice([1, 2, 4, 16, 64, 1 << 16])))


def flip(draw, data, _):
    if not data:
        return data
    at = draw.randrange(len(data))
    return data[:at] + bytes([data[at] ^ 1 << draw.randrange(8)]) + data[at + 1:]


def set_field(draw, data, _):
    """Puts in a number of one, two or four bytes, in either byte order: one that is often a limit, or one near the number that is there."""
    width = draw.choice([1, 2, 4, 4])
    if len(data) < width:
        return data
    at = draw.randrange(len(data) - width + 1)
    if draw.randrange(3) == 0:
        value = int.from_bytes(data[at:at + width], 'little') + draw.choice([-2, -1, 1, 2, 8])
    else:
        value = draw.choice(FIELDS[width] + [len(data), len(data) - 8, len(data) - at])
    order = draw.choice(['<', '<', '>'])
    return data[:at] + struct.pack(order + {1: 'B', 2: 'H', 4: 'I'}[width], value % (1 << 8 * width)) + data[at + width:]


def set_number(draw, data, _):
    """Replaces a number that is written in digits."""
    found = list(re.finditer(rb'-?\d+', data))
    if not found:
        return data
    one = draw.choice(found)
    other = draw.choice(NUMBERS) if draw.randrange(3) else str(int(one.group()[:400]) + draw.choice([-1, 1, 2, 1000])).encode()
    return data[:one.start()] + other + data[one.end():]


def take_away(draw, data, _):
    begin, end = piece(draw, data)
    return data[:begin] + data[end:]


def cut(draw, data, _):
    return data[:place(draw, data)]


def repeat(draw, data, _):
    begin, end = piece(draw, data)
    times = draw.choice([2, 2, 3, 10, draw.randint(2, LONGEST_RUN)])
    return data[:begin] + data[begin:end] * times + data[end:]


def put_word(draw, data, source):
    """Puts a known word in front of a piece, or in its place."""
    begin, end = piece(draw, data)
    return data[:begin] + draw.choice(source.words if draw.randrange(4) else TEXTS) + data[begin if draw.randrange(2) else end:]


def change_word(draw, data, source):
    """Replaces a word by another."""
    found = list(re.finditer(rb'[\w.-]+', data))
    if not found:
        return data
    one = draw.choice(found)
    return data[:one.start()] + draw.choice(source.words) + data[one.end():]


def splice(draw, data, source):
    """The beginning of the input, and the end of another."""
    other = draw.choice(source.inputs)
    return data[:place(draw, data)] + other[place(draw, other):]


def put_piece(draw, data, source):
    """Inserts a piece of another input, or of the same one."""
    other = draw.choice([data, draw.choice(source.inputs)])
    begin, end = piece(draw, other)
    at = place(draw, data)
    return data[:at] + other[begin:end] + data[at:]


def swap_lines(draw, data, source):
    """Inserts or replaces a line, by one of the same input or of another."""
    lines = data.split(b'\n')
    at = draw.randrange(len(lines))
    others = draw.choice([lines, draw.choice(source.inputs).split(b'\n')])
    if draw.randrange(2):
        lines.insert(at, draw.choice(others))
    else:
        lines[at] = draw.choice(others)
    return b'\n'.join(lines)


STEPS = [flip, set_field, set_number, set_number, take_away, cut, repeat, put_word, put_word, change_word, change_word, splice, put_piece, swap_lines]
BINARY = [flip, set_field, set_field, set_field, take_away, cut, repeat, put_word, splice, put_piece]


class Source:
    """The known inputs of a kind, and its known words: those in its inputs, and the kind's own."""

    def __init__(self, inputs, words, is_text, most_bytes):
        self.inputs, self.is_text, self.most_bytes = list(inputs), is_text, most_bytes
        found = {word for data in inputs for word in re.findall(rb'[A-Za-z_][\w.-]*|[^\w\s]+', data)} if is_text else set()
        self.words = sorted(found | set(words))

    def next(self, draw):
        """A new input, which is a known one with some changes. The inputs that were found last are chosen more often."""
        known = self.inputs if draw.randrange(2) else self.inputs[-50:]
        data = draw.choice(known)
        for _ in range(draw.randint(1, MOST_STEPS)):
            data = draw.choice(STEPS if self.is_text else BINARY)(draw, data, self)[:self.most_bytes]
        return data
