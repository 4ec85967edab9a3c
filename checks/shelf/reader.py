"""Lets sqlite3 read files that the playlist store (the shelf) has written: one that was closed, and one that was left open, with its log next to it.

Usage: reader.py PROGRAM     (shelf_bench, which reader.sh builds)
A file must have exactly the lists and stickers below, byte for byte, and the number 2 in its profile, and `PRAGMA integrity_check` must say `ok`.
The exit status is 1 if anything differs.
"""
import os
import subprocess
import sys
import tempfile

SOME = ['folder/%d.wav' % number for number in range(3)]
LISTS = {
    'b': [],
    'B': SOME,
    'it\'s "so"': SOME,
    'é 音楽': SOME,
    'new': SOME,
    'long': ['folder/%d.wav' % number for number in range(16384)],
}
STICKERS = {
    ('song', 'a.wav', 'rating'): '6',
    ('song', 'a\0b.wav', '\0n'): 'v\0w\0',
    ('song', "'; DROP TABLE list; --", '"n"'): "it''s",
    ('song', 'é.wav', 'Ω'): '🎵\n',
    ('song', 'empty.wav', 'n'): '',
    ('song', 'b', 'rating'): 'of a song',
    ('playlist', 'b', 'rating'): 'b',
    ('playlist', 'new', 'rating'): 'old',
}


def coded(*texts):
    return '|'.join(text.encode().hex().upper() for text in texts)


def rows(path, query):
    asked = subprocess.run(['sqlite3', '-batch', path, query], capture_output=True, text=True, timeout=60)
    return asked.stdout.splitlines() + asked.stderr.splitlines()


def check(path):
    """The name of each check, and whether it succeeds."""
    lists = [coded(name, ''.join(uri + '\n' for uri in uris)) for name, uris in LISTS.items()]
    stickers = [coded(kind, target, name, value) for (kind, target, name), value in STICKERS.items()]
    # in the byte order of the texts, as sqlite3's own index gives them
    yield 'lists', rows(path, 'SELECT hex(name), hex(uris) FROM list ORDER BY name') == sorted(lists)
    by_key = 'SELECT hex(kind), hex(target), hex(name), hex(value) FROM note ORDER BY kind, target, name'
    yield 'stickers', rows(path, by_key) == sorted(stickers) and rows(path, 'SELECT count(*) FROM sticker') == ['0']
    kinds = 'SELECT DISTINCT typeof(kind), typeof(target), typeof(name), typeof(value) FROM note'
    yield 'types', rows(path, kinds) == ['text|text|text|text']
    yield 'profile', rows(path, 'SELECT one, number FROM profile') == ['1|2']
    yield 'tables', rows(path, "SELECT name FROM sqlite_schema WHERE type = 'table' ORDER BY name") == ['list', 'note', 'profile', 'sticker']
    yield 'integrity_check', rows(path, 'PRAGMA integrity_check') == ['ok']


def main():
    program, failed = sys.argv[1], 0
    print(subprocess.run(['sqlite3', '--version'], capture_output=True, text=True).stdout.split()[0] + ' of sqlite3')
    for word, count in (('closed', '1'), ('left open', '0')):
        with tempfile.TemporaryDirectory() as folder:
            path = os.path.join(folder, 'shelf.db')
            subprocess.run([program, 'fill', path, count], check=True, capture_output=True, timeout=120)
            log = sum(os.path.getsize(os.path.join(folder, name)) for name in os.listdir(folder) if name != 'shelf.db')
            for name, holds in check(path):
                failed += not holds
                print('%-12s %8d bytes of log   %-16s %s' % (word, log, name, 'as written' if holds else 'FAILED'))
    print('%d failed' % failed)
    return 1 if failed else 0


sys.exit(main())
