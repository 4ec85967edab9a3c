#!/usr/bin/env python3
"""Checks that a scan shows the tags that other programs write into WAVE files.

    checks/taggers.py [PROGRAM]

PROGRAM is a built music_daemon; by default it is crates/music_daemon/out/music_daemon. Each of the programs below tags a few short files.
Then `scan --everyday` must show exactly the texts that this program was told to write and has a place for, and `scan` the six tags of
INFO lists. The programs are Debian's (`apt-get install ffmpeg sox python3-mutagen kid3-cli`); one that is not installed is named and
left out. The exit status is 1 if a scan shows something else.

What they write, in the versions of Debian 12:

- ffmpeg 5.1: a list `INFO` in front of `data`, with `IPRT` for the track. It has no place for AlbumArtist, Disc and Composer. The bytes of a
  text are those of its command line, whether they are UTF-8 or not. From a chunk `id3 ` that it reads it makes such a list, and drops the
  rest.
- mutagen 1.46, the library of Picard, Quod Libet and beets: a chunk `id3 ` behind `data`, of ID3v2.4 unless it is told to write 2.3. Each
  text ends with a zero character, and a kilobyte of zero bytes follows the frames. A tag of 2.3 keeps `TDRC`, a frame of 2.4, unless
  `update_to_v23` was called, which makes `TYER` and `TDAT` of it. It leaves INFO lists as they are.
- kid3 3.9, which uses TagLib: a chunk `ID3 ` behind `data` (`id3 ` if a setting asks for it), of ID3v2.3 with `TYER` and `TDAT` unless it is
  set to 2.4. The texts have no zero character at their end, and are in ISO-8859-1 as far as they can be, else in UTF-16 or UTF-8. Padding
  of a kilobyte follows. A picture that was added first stands in front of the texts. On demand it also writes a list `INFO` behind that,
  with `IPRT` (or, if set, `ITRK`) for the track, `IMUS` for the composer, and `ALBU` and `DISC`, which INFO does not know, for AlbumArtist
  and Disc.
- sox 14.4: no tags, and it drops those that it reads.
"""
import json
import os
import shutil
import struct
import subprocess
import sys
import tempfile
import zlib

sys.dont_write_bytecode = True

HERE = os.path.dirname(os.path.abspath(__file__))
sys.path.append(os.path.join(HERE, 'serve'))

from daemon import Table, program_of, wave

TAGS = ('Title', 'Artist', 'Album', 'Date', 'Genre', 'Comment', 'AlbumArtist', 'Track', 'Disc', 'Composer')
TEXTS = dict(zip(TAGS, ('Zwölf Töne', 'Ann & Bob', 'Blue', '2001-05-06', 'Jazz', 'live, at home', 'Various Artists', '3/12', '2/2', 'Eve')))
# Texts of which ISO-8859-1 has no character, some characters need a pair of units in UTF-16, and some bytes are 0xff in UTF-16.
FAR = dict(TEXTS, Title='Ωμέγα 𝄞', Artist='Þorvaldur ÿ', Composer='Сметана', AlbumArtist='さくら')
IN_FFMPEG = {'Title': 'title', 'Artist': 'artist', 'Album': 'album', 'Date': 'date', 'Genre': 'genre', 'Comment': 'comment', 'AlbumArtist': 'album_artist',
             'Track': 'track', 'Disc': 'disc', 'Composer': 'composer'}
IN_ID3 = {'Title': 'TIT2', 'Artist': 'TPE1', 'Album': 'TALB', 'Date': 'TDRC', 'Genre': 'TCON', 'AlbumArtist': 'TPE2', 'Track': 'TRCK', 'Disc': 'TPOS',
          'Composer': 'TCOM'}
IN_KID3 = {'Title': 'title', 'Artist': 'artist', 'Album': 'album', 'Date': 'date', 'Genre': 'genre', 'Comment': 'comment', 'AlbumArtist': 'albumartist',
           'Track': 'tracknumber', 'Disc': 'discnumber', 'Composer': 'composer'}
# kid3's own settings; it keeps those that it is given.
KID3_SETTINGS = {'id3v2Version': 'ID3v2_3_0', 'textEncoding': 'TE_ISO8859_1', 'lowercaseId3RiffChunk': 'false', 'riffTrackName': 'IPRT'}
FRAMES, LENGTH = 4410, ['Time: 0', 'duration: 0.100']

# Run by a Python that has mutagen: the path of each file, the version, whether `update_to_v23` is called, and the frames.
MUTAGEN = r'''
import json, sys
from mutagen import id3
from mutagen.wave import WAVE
for path, version, converts, frames in json.load(sys.stdin):
    file = WAVE(path)
    if file.tags is None:
        file.add_tags()
    for name, words in frames:
        if 'data' in words:
            words['data'] = bytes.fromhex(words['data'])
        file.tags.add(getattr(id3, name)(**words))
    if converts:
        file.tags.update_to_v23()
    file.save(v2_version=version)
'''


def only(texts, *names):
    return {name: texts[name] for name in names}


def without(texts, *names):
    return {name: text for name, text in texts.items() if name not in names}


def picture(side):
    """A picture in PNG of so many points each way, which hardly compresses."""
    state, rows = 1, []
    for _ in range(side):
        row = bytearray(b'\0')
        for _ in range(3 * side):
            state = state * 1103515245 + 12345 & 0x7fffffff
            row.append(state >> 16 & 0xff)
        rows.append(bytes(row))
    parts = [(b'IHDR', struct.pack('>IIBBBBB', side, side, 8, 2, 0, 0, 0)), (b'IDAT', zlib.compress(b''.join(rows))), (b'IEND', b'')]
    return b'\x89PNG\r\n\x1a\n' + b''.join(struct.pack('>I', len(data)) + name + data + struct.pack('>I', zlib.crc32(name + data)) for name, data in parts)


class Folder:
    """The folder that is scanned: its files, and what a scan must show of each in the everyday profile and in the base profile. Beside it
    are two files to begin with: one without tags, and one with a list INFO."""

    def __init__(self, work):
        self.work, self.path, self.wanted, self.makers = work, os.path.join(work, 'music'), {}, {}
        os.mkdir(self.path)
        info = [(name, TEXTS[tag]) for name, tag in zip((b'INAM', b'IART', b'IPRD', b'ICRD', b'IGNR', b'ICMT'), TAGS)]
        self.plain, self.listed = self.source('plain.wav', ()), self.source('listed.wav', [*info, (b'ITRK', '9')])

    def source(self, name, tags):
        path = os.path.join(self.work, name)
        with open(path, 'wb') as file:
            file.write(wave([(number % 200,) for number in range(FRAMES)], 1, 8, tags=tags))
        return path

    def new(self, maker, what, everyday, base=()):
        """The path of a new file of one of these programs, by what it shows; the tags that it must have."""
        name = '%s/%s.wav' % (maker, what)
        os.makedirs(os.path.join(self.path, maker), exist_ok=True)
        self.wanted[name], self.makers[name] = (dict(everyday), dict(base)), maker
        return os.path.join(self.path, name)

    def copy(self, source, *words):
        path = self.new(*words)
        shutil.copy(source, path)
        return path


def run(words, **more):
    """Runs one of the programs; if it fails, so does this check."""
    done = subprocess.run(words, stdin=subprocess.DEVNULL if 'input' not in more else None, capture_output=True, **more)
    if done.returncode:
        sys.exit('%s: %s' % (words[0], done.stderr.decode(errors='replace')[-500:]))


# What each program writes.

def by_ffmpeg(source, path, texts, encoding='utf-8'):
    pairs = [word for tag, text in texts.items() for word in (b'-metadata', ('%s=%s' % (IN_FFMPEG[tag], text)).encode(encoding))]
    run(['ffmpeg', '-v', 'error', '-y', '-i', source, *pairs, path])


def with_ffmpeg(folder):
    kept = 'Title', 'Artist', 'Album', 'Date', 'Genre', 'Comment', 'Track'
    six = kept[:6]
    for what, texts in (('a list INFO', TEXTS), ('other alphabets', FAR)):
        by_ffmpeg(folder.plain, folder.new('ffmpeg', what, only(texts, *kept), only(texts, *six)), texts)
    latin = dict(TEXTS, Title='Zwölf “Töne”', Artist='Ann')
    base = only(latin, *without(latin, 'Title', 'AlbumArtist', 'Track', 'Disc', 'Composer'))
    by_ffmpeg(folder.plain, folder.new('ffmpeg', 'Windows-1252', only(latin, *kept), base), latin, 'cp1252')


def id3_frames(texts, encoding):
    """The frames that mutagen is told to write."""
    comment = {'encoding': encoding, 'lang': 'eng', 'desc': '', 'text': [texts['Comment']]} if 'Comment' in texts else None
    frames = [[name, {'encoding': encoding, 'text': [texts[tag]]}] for tag, name in IN_ID3.items() if tag in texts]
    return frames + ([['COMM', comment]] if comment else [])


def with_mutagen(folder):
    python, todo = python_with('mutagen'), []

    def adds(source, what, everyday, base, version, frames, converts=False):
        todo.append((folder.copy(source, 'mutagen', what, everyday, base), version, converts, frames))

    for encoding, name, texts in ((0, 'ISO-8859-1', TEXTS), (1, 'UTF-16 with marks', FAR), (2, 'UTF-16', FAR), (3, 'UTF-8', FAR)):
        adds(folder.plain, '2.4 in ' + name, texts, {}, 4, id3_frames(texts, encoding))
    for encoding, name, texts in ((0, 'ISO-8859-1', TEXTS), (1, 'UTF-16', FAR)):
        adds(folder.plain, '2.3 in ' + name, texts, {}, 3, id3_frames(texts, encoding))
        adds(folder.plain, '2.3 in %s, with TYER' % name, dict(texts, Date='2001'), {}, 3, id3_frames(texts, encoding), True)
    several = [['TPE1', {'encoding': 3, 'text': ['Ann', 'Bob']}], ['TXXX', {'encoding': 3, 'desc': 'TIT2', 'text': ['x']}],
               ['COMM', {'encoding': 1, 'lang': 'eng', 'desc': 'a', 'text': ['described']}],
               ['COMM', {'encoding': 1, 'lang': 'deu', 'desc': '', 'text': ['live']}],
               ['APIC', {'encoding': 3, 'mime': 'image/png', 'type': 3, 'desc': '', 'data': picture(200).hex()}]]
    adds(folder.plain, 'several texts, and a picture', {'Artist': 'Ann', 'Comment': 'live'}, {}, 4, several)
    adds(folder.plain, 'a long text', {'Album': 'x' * 1024}, {}, 4, id3_frames({'Title': 'é' * 513, 'Album': 'x' * 1024, 'Artist': 'a\tb'}, 3))
    six, other = only(TEXTS, *TAGS[:6]), {'Title': 'Other', 'Track': '4', 'Disc': '1'}
    adds(folder.listed, 'beside a list INFO', dict(six, **other), six, 4, id3_frames(other, 3))
    run([python, '-c', MUTAGEN], input=json.dumps(todo).encode())


def with_kid3(folder):
    home = os.path.join(folder.work, 'home')
    os.mkdir(home)
    around = dict(os.environ, HOME=home, XDG_CONFIG_HOME=home, LANG='C.UTF-8', QT_QPA_PLATFORM='offscreen')
    cover = os.path.join(folder.work, 'cover.png')
    with open(cover, 'wb') as file:
        file.write(picture(200))

    def sets(path, texts, settings, kind='2', before=()):
        words = ['config Tag.%s %s' % pair for pair in dict(KID3_SETTINGS, **settings).items()] + list(before)
        words += ["set %s '%s' %s" % (IN_KID3[tag], text, kind) for tag, text in texts.items()] + ['save']
        run(['kid3-cli', *(it for word in words for it in ('-c', word)), path], env=around)

    def adds(what, texts, everyday, base=(), settings=(), **words):
        sets(folder.copy(folder.plain, 'kid3', what, everyday, base), texts, dict(settings), **words)

    adds('2.3', TEXTS, dict(TEXTS, Date='2001'))
    adds('2.3 in UTF-16', FAR, dict(FAR, Date='2001'), settings={'textEncoding': 'TE_UTF16'})
    adds('2.4', FAR, FAR, settings={'id3v2Version': 'ID3v2_4_0'})
    adds('2.4 in a chunk id3', FAR, FAR, settings={'id3v2Version': 'ID3v2_4_0', 'textEncoding': 'TE_UTF8', 'lowercaseId3RiffChunk': 'true'})
    adds('behind a picture', TEXTS, dict(TEXTS, Date='2001'), before=["set picture:'%s' 'front'" % cover])
    for track in ('IPRT', 'ITRK'):
        adds('a list INFO with ' + track, TEXTS, without(TEXTS, 'AlbumArtist', 'Disc'), only(TEXTS, *TAGS[:6]), {'riffTrackName': track}, kind='3')
    listed = only(TEXTS, 'Title', 'Artist', 'Track', 'Composer')
    both = folder.copy(folder.plain, 'kid3', 'a tag and a list', dict(listed, Title='Other'), only(TEXTS, 'Title', 'Artist'))
    sets(both, listed, {}, kind='3')
    sets(both, {'Title': 'Other'}, {})


def with_sox(folder):
    """sox copies one file of each other program."""
    tagged = {maker: name for name, maker in folder.makers.items()}
    for maker, name in tagged.items():
        run(['sox', os.path.join(folder.path, name), folder.new('sox', "a copy of %s's file" % maker, {})])
    run(['sox', folder.listed, folder.new('sox', 'a copy of a list INFO', {})])


def python_with(module):
    """A Python that has this module, or None: the one that runs this script, or Debian's."""
    for python in (sys.executable, '/usr/bin/python3'):
        if subprocess.run([python, '-c', 'import ' + module], capture_output=True).returncode == 0:
            return python
    return None


# What a scan shows.

def scanned(program, folder, words):
    """What a scan shows of each file: the lines between its name and its length; the whole lines if the length is wrong."""
    done = subprocess.run([program, 'scan', *words, folder.path], capture_output=True, timeout=60)
    if done.returncode or done.stderr:
        sys.exit('%s: status %d, %s' % (' '.join(['scan', *words]), done.returncode, done.stderr.decode(errors='replace')[-500:]))
    found = {}
    for part in done.stdout.decode().split('file: ')[1:]:
        name, *lines = part.split('\n')[:-1]
        found[name] = lines[:-2] if lines[-2:] == LENGTH else lines
    return found


def difference(found, texts):
    """How the lines of a file differ from these texts; an empty text if they do not."""
    wanted = ['%s: %s' % (tag, texts[tag]) for tag in TAGS if tag in texts]
    if found is None:
        return 'the file is not shown'
    told = ['%s is missing' % line for line in wanted if line not in found] + ['%s is shown' % line for line in found if line not in wanted]
    return '; '.join(told) or ('' if found == wanted else 'the order is another')


MAKERS = [('ffmpeg', with_ffmpeg, lambda: shutil.which('ffmpeg')), ('mutagen', with_mutagen, lambda: python_with('mutagen')),
          ('kid3', with_kid3, lambda: shutil.which('kid3-cli')), ('sox', with_sox, lambda: shutil.which('sox'))]


def main(words):
    program = program_of(words[0] if words else None)
    table = Table('Tags of other programs', 9, 40, 120)
    with tempfile.TemporaryDirectory() as work:
        folder = Folder(work)
        for name, tags, is_there in MAKERS:
            if is_there():
                tags(folder)
            else:
                table.row(name, 'left out', 'not installed')
        found = [scanned(program, folder, words) for words in (['--everyday'], [])]
        for name, wanted in sorted(folder.wanted.items()):
            told = [difference(shown.get(name), texts) for shown, texts in zip(found, wanted)]
            told[1] = told[1] and 'without --everyday: ' + told[1]
            wrong = '; '.join(filter(None, told))
            table.row(folder.makers[name], os.path.basename(name).removesuffix('.wav'), wrong[:300] or 'as written', right=not wrong)
    return table.status()


if __name__ == '__main__':
    sys.exit(main(sys.argv[1:]))
