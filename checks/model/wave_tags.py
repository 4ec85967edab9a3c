"""The tags of WAVE files, read apart from the program: from INFO lists, and in the everyday profile from ID3v2 tags too. checks/fuzz compares
what a scan prints with this reading."""
import re
import struct

from library import EVERYDAY_TAGS, TAGS, tag_text

# The INFO chunks of each tag, in the base profile and in the everyday profile; a later one counts only if there is none of an earlier one.
INFO = {'Title': [b'INAM'], 'Artist': [b'IART'], 'Album': [b'IPRD'], 'Date': [b'ICRD'], 'Genre': [b'IGNR'], 'Comment': [b'ICMT']}
EVERYDAY_INFO = dict(INFO, Track=[b'ITRK', b'IPRT'], Composer=[b'IMUS'])
# The frames of each tag: that of ID3v2.2, and then those of ID3v2.3 and ID3v2.4.
FRAMES = {'Title': [b'TT2', b'TIT2'], 'Artist': [b'TP1', b'TPE1'], 'Album': [b'TAL', b'TALB'], 'Date': [b'TYE', b'TDRC', b'TYER'],
          'Genre': [b'TCO', b'TCON'], 'Comment': [b'COM', b'COMM'], 'AlbumArtist': [b'TP2', b'TPE2'], 'Track': [b'TRK', b'TRCK'],
          'Disc': [b'TPA', b'TPOS'], 'Composer': [b'TCM', b'TCOM']}
LATIN_1, UTF_16, UTF_16_BE, UTF_8 = range(4)
MARKS = {b'\xff\xfe': 'utf-16-le', b'\xfe\xff': 'utf-16-be'}


def tags_of(data, everyday):
    """The texts of a WAVE file's tags, by tag."""
    parts = list(chunks(data[12:]))
    lists = [content[4:] for name, content in parts if name == b'LIST' and content and content[:4] == b'INFO']
    items = [(name, info_text(content, everyday)) for one in lists for name, content in chunks(one) if content is not None]
    found = texts_of(EVERYDAY_INFO if everyday else INFO, items)
    tag = next((content for name, content in parts if name in (b'id3 ', b'ID3 ')), None)
    if everyday and tag is not None:
        found.update(texts_of(FRAMES, [(name, frame_text(name, content)) for name, content in frames(tag)]))
    return {name: found[name] for name in (EVERYDAY_TAGS if everyday else TAGS) if name in found}


def texts_of(names, items):
    """For each tag the first text that is not None of the first of its names that has one."""
    found = {}
    for tag, wanted in names.items():
        texts = [text for one in wanted for name, text in items if name == one and text is not None]
        if texts:
            found[tag] = texts[0]
    return found


def chunks(data):
    """The chunks that follow one another here: the name and the content of each. The content is None if the end cuts it off."""
    at = 0
    while len(data) - at >= 8:
        name, size = struct.unpack_from('<4sI', data, at)
        content = data[at + 8:at + 8 + size]
        yield name, content if len(content) == size else None
        at += 8 + size + size % 2


def info_text(content, everyday):
    """The text of an INFO chunk, or None if it is skipped."""
    content = content.partition(b'\0')[0]
    for encoding in ('utf-8', 'cp1252') if everyday else ('utf-8',):
        try:
            return tag_text(content.decode(encoding))
        except UnicodeDecodeError:
            pass
    return None


# ID3v2.

def syncsafe(field):
    """The number in bytes of which each gives seven bits; None if one has the eighth."""
    return None if any(byte >= 0x80 for byte in field) else sum(byte << 7 * place for place, byte in enumerate(reversed(field)))


def frames(tag):
    """The frames of a tag: the identifier of each, and its content; those that are skipped because of their flags are left out."""
    if len(tag) < 10 or tag[:3] != b'ID3' or tag[3] not in (2, 3, 4):
        return
    version, flags, size = tag[3], tag[5], syncsafe(tag[6:10])
    if size is None or (version < 4 and flags & 0x80) or (version == 2 and flags & 0x40):
        return
    rest = tag[10:10 + size]
    if flags & 0x40:
        rest = behind_extended_header(version, rest)
    width, head = (3, 6) if version == 2 else (4, 10)
    while len(rest) >= head and re.fullmatch(b'[A-Z0-9]+', rest[:width]):
        field = rest[width:2 * width]
        size = syncsafe(field) if version == 4 else int.from_bytes(field, 'big')
        if size is None or head + size > len(rest):
            return
        content = content_of(version, rest[9] if version > 2 else 0, flags & 0x80, rest[head:head + size])
        if content:
            yield rest[:width], content
        rest = rest[head + size:]


def behind_extended_header(version, rest):
    """What is left of a tag behind its extended header; nothing if that goes past the tag's end."""
    size = syncsafe(rest[:4]) if version == 4 else int.from_bytes(rest[:4], 'big') + 4
    return b'' if len(rest) < 4 or size is None or size > len(rest) else rest[size:]


def content_of(version, flags, is_unsynchronised, body):
    """The content of a frame, by the second byte of its flags; None if it is compressed or encrypted, or too short."""
    if flags & {2: 0, 3: 0xc0, 4: 0x0c}[version]:
        return None
    if version == 3:
        front = 1 if flags & 0x20 else 0
    else:
        front = (1 if flags & 0x40 else 0) + (4 if flags & 0x01 else 0)
    if len(body) < front:
        return None
    body = body[front:]
    if version == 4 and (is_unsynchronised or flags & 0x02):
        body = body.replace(b'\xff\0', b'\xff')
    return body


def frame_text(name, content):
    """The text of a frame, or None if it is skipped."""
    encoding, body = content[0], content[1:]
    if name in FRAMES['Comment']:
        body = behind_description(encoding, body[3:]) if len(body) >= 3 else None
    return None if body is None else text_in(encoding, body)


def behind_description(encoding, body):
    """What follows an empty description; None if there is a description, or if it does not end."""
    if encoding == UTF_16 and body[:2] in MARKS:
        body = body[2:]
    zero = b'\0\0' if encoding in (UTF_16, UTF_16_BE) else b'\0'
    return body[len(zero):] if body.startswith(zero) else None


def text_in(encoding, body):
    """The text in these bytes, up to its first zero character; None if it is not well formed, or skipped."""
    if encoding in (UTF_16, UTF_16_BE):
        mark = MARKS.get(body[:2]) if encoding == UTF_16 else None
        units = body[2:] if mark else body
        end = next((at for at in range(0, len(units) - 1, 2) if units[at:at + 2] == b'\0\0'), len(units))
        codec, body = mark or 'utf-16-be', units[:end]
    elif encoding in (LATIN_1, UTF_8):
        codec, body = 'latin-1' if encoding == LATIN_1 else 'utf-8', body.partition(b'\0')[0]
    else:
        return None
    try:
        return tag_text(body.decode(codec))
    except UnicodeDecodeError:
        return None
