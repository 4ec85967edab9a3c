#!/usr/bin/env python3
"""Checks that a start converts a playlist store (a shelf) of a version before 0.9.0, which has profile 1, to profile 2. This is done with each
write of the conversion refused in turn, with the daemon killed at each write, and with the daemon killed many times at random moments. Each time
sqlite3 and the daemon read what is then in the file.

    checks/serve/moved.py [PROGRAM] [--kills N]      (by default 200 kills)

The file is one that was closed properly, and one that was left open, with its log next to it. The worked row about stickers of playlists is also
run on a file, with a restart between any two of its lines.
"""
import glob
import os
import random
import shutil
import sqlite3
import sys
import tempfile
import time

sys.dont_write_bytecode = True
sys.path.append(os.path.dirname(os.path.dirname(os.path.abspath(__file__))))

from daemon import ROOT, Daemon, Table, given_to, program_of, put_songs, uri_of
from program import build_library

ROW = os.path.join(ROOT, 'crates', 'transcript_tests', 'data', 'stickers-of-stored-playlists.row')
MANY = 5_000      # how many stickers the file has whose conversion is killed at random moments
MOST = 100_000    # how many stickers the file has whose conversion is timed
TABLES = (
    'CREATE TABLE profile (one INTEGER PRIMARY KEY CHECK (one = 1), number INTEGER NOT NULL)',
    'CREATE TABLE list (name TEXT NOT NULL PRIMARY KEY, uris TEXT NOT NULL)',
    'CREATE TABLE sticker (uri TEXT NOT NULL, name TEXT NOT NULL, value TEXT NOT NULL, PRIMARY KEY (uri, name))',
    'INSERT INTO profile (one, number) VALUES (1, 1)',
)
NAMES = {1: {'profile', 'list', 'sticker'}, 2: {'profile', 'list', 'sticker', 'note'}}


def files_of(path):
    """The file of a store, and those next to it, such as its log, except the one that sqlite3 maps as shared memory."""
    return [name for name in glob.glob(glob.escape(path) + '*') if not name.endswith('-shm')]


def copy(source, target):
    """Puts the files of a store in place of those of another."""
    for name in glob.glob(glob.escape(target) + '*'):
        os.remove(name)
    for name in files_of(source):
        shutil.copyfile(name, target + name[len(source):])


def first_profile(path, lists, stickers, is_closed):
    """Writes a file of profile 1 with a log, as releases before 0.9.0 did."""
    made = path + '.made'
    store = sqlite3.connect(made, isolation_level=None)
    store.execute('PRAGMA journal_mode = WAL')
    store.execute('PRAGMA wal_autocheckpoint = 0')
    store.execute('BEGIN')
    for statement in TABLES:
        store.execute(statement)
    store.executemany('INSERT INTO list (name, uris) VALUES (?, ?)', lists.items())
    rows = [(uri, name, value) for (uri, name), value in stickers.items()]
    store.executemany('INSERT INTO sticker (uri, name, value) VALUES (?, ?, ?)', rows)
    store.execute('COMMIT')
    if is_closed:
        store.close()
    for name in files_of(made):
        shutil.copyfile(name, path + name[len(made):])
    if not is_closed:
        store.close()
    for name in glob.glob(glob.escape(made) + '*'):
        os.remove(name)


def read(path):
    """The profile's number, the lists, and the stickers of songs, as sqlite3 reads them from a copy of the file; None if the file is not an intact
    store of one of the profiles."""
    with tempfile.TemporaryDirectory() as folder:
        other = os.path.join(folder, 'copy.db')
        copy(path, other)
        store = sqlite3.connect(other)
        number, = store.execute('SELECT number FROM profile').fetchone() or (None,)
        names = {name for name, in store.execute("SELECT name FROM sqlite_master WHERE type = 'table'")}
        sound = store.execute('PRAGMA integrity_check').fetchall()
        if number not in NAMES or names != NAMES[number] or sound != [('ok',)]:
            store.close()
            return None
        lists = dict(store.execute('SELECT name, uris FROM list'))
        rows = store.execute("SELECT 'song', uri, name, value FROM sticker").fetchall()
        if number == 2:
            # The old table must be empty.
            rows = store.execute('SELECT kind, target, name, value FROM note').fetchall() if not rows else None
        store.close()
        return number, lists, rows


def is_kept(path, lists, stickers):
    """Whether a file of either profile has these lists and these stickers, and no others."""
    found = read(path)
    return found is not None and found[1] == lists and sorted(found[2] or []) == sorted(('song', uri, name, value) for (uri, name), value in stickers.items())


class Trial:
    """A file of profile 1, and starts of the daemon on copies of it."""

    def __init__(self, program, folder, music, lists, stickers, is_closed=True):
        self.program, self.folder, self.music, self.lists, self.stickers = program, folder, music, lists, stickers
        self.path, self.first = os.path.join(folder, 'shelf.db'), os.path.join(folder, 'first.db')
        for name in glob.glob(glob.escape(self.first) + '*'):
            os.remove(name)
        first_profile(self.first, lists, stickers, is_closed)
        self.put_back()

    def put_back(self):
        copy(self.first, self.path)

    def start(self, environment=None, wait=True):
        return Daemon(self.program, self.folder, self.music, shelf=self.path, wait=wait, environment=environment)

    def is_told(self):
        """Starts the daemon on the file as it is: whether it answers with these lists and stickers, and has converted the file."""
        daemon = self.start()
        client = daemon.client()
        lists = {name: client.must('listplaylist "%s"' % name) for name in (line[10:] for line in client.must('listplaylists'))}
        found, uri = {}, None
        for name in sorted({name for _, name in self.stickers}):
            for line in client.must('sticker find song "" "%s"' % name):
                if line.startswith('file: '):
                    uri = line[6:]
                else:
                    found[uri, name] = line[len('sticker: '):].partition('=')[2]
        client.close()
        status, _ = daemon.end()
        told = {name: ['file: ' + uri for uri in text.split('\n')[:-1]] for name, text in self.lists.items()}
        kept = read(self.path)
        return status == 0 and lists == told and found == self.stickers and kept is not None and kept[0] == 2

    def try_write(self, library, variable, count):
        """Starts the daemon with a fault at this write: whether the start ended, whether the conversion was complete, and whether anything is
        wrong."""
        self.put_back()
        daemon = self.start(dict(os.environ, LD_PRELOAD=library, **{variable: str(count)}), wait=False)
        ended = self.is_ended(daemon)
        kept = is_kept(self.path, self.lists, self.stickers)
        moved = kept and read(self.path)[0] == 2
        return ended, moved, not kept or not self.is_told()

    def is_ended(self, daemon):
        """Whether it ended by itself or because of the fault; if it listens instead, it is killed."""
        try:
            daemon.wait_for_port()
        except AssertionError:
            if daemon.process.poll() is None:
                daemon.kill()
                raise
            return True
        daemon.kill()
        return False


def small(songs):
    """Lists and stickers that are difficult: with empty texts, quotes, long texts, and names that differ only in case."""
    lists = {'one': ''.join(uri + '\n' for uri in songs), 'none': '', "it's": songs[0] + '\n'}
    stickers = {(uri, name): '%s of %d' % (name, number) for number, uri in enumerate(songs) for name in ('rating', 'Rating')}
    stickers[songs[0], 'long'] = 'x' * 4000
    stickers[songs[1], "quote'"] = "it's"
    stickers[songs[2], 'empty'] = ''
    return lists, stickers


def try_writes(table, trial, library, how):
    """For each write of a start: kills the program at this write, until a start has no such write; and then refuses each of these writes."""
    stops, moved, wrong = 0, 0, 0
    while True:
        ended, is_moved, is_wrong = trial.try_write(library, 'FAULTY_STOP', stops + 1)
        wrong += is_wrong
        if not ended:
            break
        stops, moved = stops + 1, moved + is_moved
    table.row('%s, killed at each of %d writes, %d after it was converted' % (how, stops, moved), '%d wrong' % wrong, right=stops > 0 and wrong == 0 and moved < stops)
    ends, wrong = 0, 0
    for count in range(1, stops + 1):
        ended, _, is_wrong = trial.try_write(library, 'FAULTY_WRITE', count)
        ends, wrong = ends + ended, wrong + is_wrong
    table.row('%s, each write refused in turn, which ended %d starts' % (how, ends), '%d wrong' % wrong, right=ends > 0 and wrong == 0)


def try_kills(table, trial, kills):
    """Kills the daemon at random moments, within the time that a start with the conversion takes, and a third more."""
    draw = random.Random(11)
    began = time.monotonic()
    trial.start().kill()
    longest = (time.monotonic() - began) * 4 / 3
    moved, wrong = 0, 0
    for _ in range(kills):
        trial.put_back()
        daemon = trial.start(wait=False)
        time.sleep(draw.random() * longest)
        daemon.kill()
        kept = is_kept(trial.path, trial.lists, trial.stickers)
        wrong += not kept
        moved += kept and read(trial.path)[0] == 2
    table.row('killed %d times within %.2f s, %d of them after it was converted' % (kills, longest, moved), '%d wrong' % wrong, right=wrong == 0 and 0 < moved < kills)


def lines_of_row():
    """The lines of the worked row about stickers of playlists, each with its answer."""
    steps = []
    with open(ROW, encoding='utf-8') as row:
        for line in row:
            if line.startswith('> 1 '):
                steps.append((line[4:].rstrip('\n'), []))
            elif line.startswith('< 1 ') and not line.startswith('< 1 OK MPD'):
                steps[-1][1].append(line[4:].rstrip('\n'))
    return steps


def try_row(table, program, folder, music):
    """Runs that row on a file, with a restart of the daemon between any two of its lines."""
    steps, path, wrong = lines_of_row(), os.path.join(folder, 'row.db'), 0
    for cut in range(len(steps) + 1):
        for name in files_of(path):
            os.remove(name)
        for part in (steps[:cut], steps[cut:]):
            daemon = Daemon(program, folder, music, shelf=path)
            client = daemon.client()
            wrong += sum(client.ask(line) != answer for line, answer in part)
            client.close()
            wrong += daemon.end()[0] != 0
    table.row('the worked row, with a restart between any two of its %d lines' % len(steps), '%d wrong' % wrong, right=bool(steps) and wrong == 0)


def seconds_to_start(trial):
    began = time.monotonic()
    daemon = trial.start()
    passed = time.monotonic() - began
    daemon.end()
    return passed


def main():
    given = given_to('Checks that a start converts a playlist store of profile 1.', kills=(200, 'how many kills at random moments'))
    program = program_of(given.program)
    table = Table('A playlist store of profile 1 that is converted', 70, 40)
    with tempfile.TemporaryDirectory() as folder:
        music, library = os.path.join(folder, 'music'), build_library(folder)
        put_songs(music, 12, 100)
        songs = [uri_of(number) for number in range(12)]
        for how, is_closed in (('closed', True), ('left open', False)):
            trial = Trial(program, folder, music, *small(songs), is_closed)
            right = read(trial.path)[0] == 1 and trial.is_told() and is_kept(trial.path, trial.lists, trial.stickers)
            table.row('%s, converted, read by the daemon and by sqlite3' % how, 'as it was' if right else 'not as it was', right=right)
            try_writes(table, trial, library, how)
        try_row(table, program, folder, music)
        many = {('song %d' % number, 'rating'): str(number) for number in range(MANY)}
        try_kills(table, Trial(program, folder, music, {}, many), given.kills)
        trial = Trial(program, folder, music, {}, {('song %d' % number, 'rating'): str(number) for number in range(MOST)})
        first, later = seconds_to_start(trial), seconds_to_start(trial)
        right = is_kept(trial.path, {}, trial.stickers) and read(trial.path)[0] == 2
        table.row('a start with %d stickers' % MOST, '%.2f s with the conversion, %.2f s later' % (first, later), right=right)
    return table.status()


if __name__ == '__main__':
    sys.exit(main())
