#!/usr/bin/env python3
"""Runs many lines of every kind of command through `music_daemon script`.

    checks/many_lines.py [--program PROGRAM] [--lines 2000000] [--start 1]

The lines are commands of nine clients, and steps of a decoder, an output and a scan, with random arguments, right and wrong; commands
also come in command lists. The random generator begins with --start. The first run gets about sixty lines at a time, so that a step can
name the job that was given last; the second run reads all lines from a file. Both must end well, and print the same. The table says how
much memory the program used after how many lines. It stays flat, since the history is folded, except that the window of past events may
hold the longest answers.
"""
import argparse
import hashlib
import os
import random
import subprocess
import sys
import tempfile
import time

sys.dont_write_bytecode = True
sys.path.insert(0, os.path.join(os.path.dirname(os.path.abspath(__file__)), 'serve'))

from daemon import quoted

TOP = os.path.dirname(os.path.dirname(os.path.abspath(__file__)))
PROGRAM = os.path.join(TOP, 'crates', 'music_daemon', 'out', 'music_daemon')
SONGS = [('%s/song %d.wav' % (folder, n) if folder else 'song%d.wav' % n, 100 + 900 * n)
         for folder in ('', 'rock', 'rock/live', 'jazz') for n in range(5)]
FORMS = {
    '': 'ping close commands notcommands tagtypes status currentsong clearerror noidle clear getvol stop next previous '
        'listplaylists outputs channels readmessages kill',
    'uri': 'add listall lsinfo update rescan', 'uri place': 'addid', 'uri sign': 'addid', 'range': 'delete shuffle playlistinfo',
    'id': 'deleteid playid playlistid', 'range place': 'move', 'id place': 'moveid', 'place place': 'swap', 'id id': 'swapid',
    'small range range': 'prio', 'small id id': 'prioid', 'version': 'plchanges plchangesposid', 'version range': 'plchanges plchangesposid',
    'switch': 'repeat random consume single pause', 'oneshot': 'single', 'fade': 'crossfade', 'percent': 'setvol', 'place': 'play',
    'place time': 'seek', 'id time': 'seekid', 'time': 'seekcur', 'sign': 'seekcur', 'filter': 'find search findadd searchadd count',
    'filter window': 'find search', 'tag': 'list', 'tag filter': 'list', 'name': 'save load listplaylist listplaylistinfo playlistclear rm',
    'name range': 'load', 'name uri': 'playlistadd', 'name place': 'playlistdelete', 'name place place': 'playlistmove',
    'name name': 'rename', 'get song uri key': 'sticker', 'set song uri key word': 'sticker', 'delete song uri key': 'sticker',
    'delete song uri': 'sticker', 'list song uri': 'sticker', 'find song uri key': 'sticker', 'find song uri key compare word': 'sticker',
    'output': 'enableoutput disableoutput toggleoutput', 'channel': 'subscribe unsubscribe', 'channel word': 'sendmessage',
    'subsystem subsystem': 'idle', 'none': 'idle play pause',
}
# Every command with each form of its arguments; all of these are equally frequent.
KINDS = [(name, form.split()) for form, names in FORMS.items() for name in names.split()]
SUBSYSTEMS = 'database update stored_playlist playlist player mixer output options partition sticker subscription message'.split()
FILTERS = ['artist Ann', 'title x artist Bo', "\"(Artist == 'Ann')\"", "\"(!(title contains 'o'))\"", "\"((any contains 'a') AND (base 'rock'))\"",
           'file rock/', '(', '"(Artist = x)"', 'base rock', '"(nothing == \'x\')"']


class Lines:
    def __init__(self, start):
        self.random = random.Random(start)
        self.job = (0, 0)

    def number(self, most):
        return str(self.random.randrange(most + 1))

    def argument(self, form):
        pick = self.random.choice
        if self.random.random() < 0.04:
            return pick(['', '""', '-1', '4294967296', 'x', '"', 'a"b', '99999999999999999999', '"\\"', '1:0', '0:', '\u00e9\u6f22', "'", '1.'])
        makers = {
            'uri': lambda: quoted(pick(pick([[song[0] for song in SONGS], ['rock', 'rock/live/', 'jazz', '', 'nowhere', 'rock/song']]))),
            'place': lambda: self.number(14), 'id': lambda: self.number(60), 'version': lambda: self.number(400), 'small': lambda: self.number(255),
            'range': lambda: pick(['%s', '%s:', '0:%s', '%s:12']) % self.number(12), 'sign': lambda: pick('+-') + self.number(5),
            'switch': lambda: pick('01'), 'oneshot': lambda: 'oneshot', 'fade': lambda: pick(['0', '1', '2', '3600', '3601']),
            'percent': lambda: self.number(101), 'time': lambda: pick(['0', '0.5', self.number(3), self.number(1) + '.' + self.number(999)]),
            'filter': lambda: pick(FILTERS), 'window': lambda: 'window %s:%s' % (self.number(3), self.number(9)),
            'tag': lambda: pick(['artist', 'Title', 'album', 'nothing']), 'name': lambda: pick(['best', 'more', '"x y"', 'a/b']),
            'key': lambda: pick(['rating', 'mood', 'a=b']), 'word': lambda: pick(['1', '10', '9', 'good', quoted('two words')]),
            'compare': lambda: pick('=<>'), 'output': lambda: pick('0001'), 'channel': lambda: pick(['a', 'b', 'c', '!']),
            'subsystem': lambda: pick(SUBSYSTEMS), 'none': lambda: '',
        }
        return makers[form]() if form in makers else form

    def command(self):
        name, forms = self.random.choice(KINDS)
        words = [name] + [self.argument(form) for form in forms]
        if self.random.random() < 0.02:
            words.append('more')
        return ' '.join(filter(None, words))

    def client(self):
        """One line of a client, or a whole command list."""
        client, chance = self.random.randrange(1, 10), self.random.random()
        if chance < 0.03:
            begin = self.random.choice(['command_list_begin', 'command_list_ok_begin'])
            inside = [self.command() for _ in range(self.random.randrange(5))]
            return ['%d %s' % (client, line) for line in [begin] + inside + ['command_list_end']]
        if chance < 0.035:
            return ['%d %s' % (client, self.random.choice(['', '\t', 'nothing', 'PING', 'command_list_end', 'command_list_begin', '"ping"']))]
        return ['%d %s' % (client, self.command())]

    def step(self):
        number, count = self.job
        have = str(self.random.choice([count, count, self.random.randrange(1025)]))
        job = str(self.random.choice([number, number, number, number + 1, 0]))
        return self.random.choice([
            '! want', '! want', '! have %s %s' % (job, have), '! have %s %s' % (job, have), '! have %s %s' % (job, have),
            '! failed %s%s' % (job, self.random.choice(['', ' partner'])), '! scanned', '! gone %d' % self.random.randrange(1, 10),
            '! song new%d.wav %d' % (self.random.randrange(20), self.random.randrange(1, 9000)), '! want 1', '! nothing', '!',
            '! turn 0 %s %s' % (self.number(2000), self.number(9)),
        ])

    def some(self):
        """About sixty lines; the last is a turn, whose answer shows that all of them were run."""
        lines = []
        while len(lines) < 60:
            lines += [self.step()] if self.random.random() < 0.25 else self.client()
        return lines + ['! want', '! turn 0 0 0']


def opening():
    lines = ['! song %s %d Artist=%s Title=%s' % (quoted(uri), frames, 'Ann' if frames % 200 else 'Bo', uri[-5]) for uri, frames in SONGS]
    return lines + ['! limit max_queue 12', '! limit max_version 300', '1 ping']


def memory_of(pid):
    with open('/proc/%d/status' % pid, encoding='ascii') as status:
        return next(int(line.split()[1]) for line in status if line.startswith('VmHWM'))


def first_run(program, count, start, kept):
    """Feeds the program the lines as they are made, and keeps them. Returns a digest of what it printed, its exit status, its memory after
    so many lines, and how many lines there were."""
    lines, made, digest, memory = Lines(start), 0, hashlib.sha256(), []
    child = subprocess.Popen([program, 'script'], stdin=subprocess.PIPE, stdout=subprocess.PIPE, bufsize=0)
    pending, more = b'', opening()
    while made < count:
        text = ''.join(line + '\n' for line in more).encode()
        made += len(more)
        kept.write(text)
        child.stdin.write(text)
        turns = sum(line.startswith('! turn 0 ') for line in more)
        while turns:
            got = os.read(child.stdout.fileno(), 1 << 16)
            if not got:
                sys.exit('the program ended after at most %d lines, status %s' % (made, child.wait()))
            digest.update(got)
            whole = (pending + got).split(b'\n')
            pending = whole.pop()
            turns -= sum(line.startswith((b'! live ', b'! refused')) for line in whole if b'! ' == line[:2])
            jobs = [line.split() for line in whole if line.startswith(b'! job ')]
            if jobs:
                lines.job = int(jobs[-1][2]), int(jobs[-1][5])
        if made * 8 // count > len(memory):
            memory.append((made, memory_of(child.pid)))
        more = lines.some()
    child.stdin.close()
    digest.update(child.stdout.read())
    return digest.hexdigest(), child.wait(), memory, made


def main():
    parser = argparse.ArgumentParser(description='Runs many random lines of every kind of command through `music_daemon script`.')
    parser.add_argument('--program', default=PROGRAM, help='the built program (default: crates/music_daemon/out/music_daemon)')
    parser.add_argument('--lines', type=int, default=2000000, help='about how many lines (default: 2000000)')
    parser.add_argument('--start', type=int, default=1, help='the seed of the random generator (default: 1)')
    given = parser.parse_args()
    with tempfile.NamedTemporaryFile(prefix='many_lines-') as kept:
        began = time.time()
        first, status, memory, made = first_run(given.program, given.lines, given.start, kept)
        kept.flush()
        passed, again = time.time() - began, time.time()
        with open(kept.name, 'rb') as text:
            second = subprocess.run([given.program, 'script'], stdin=text, stdout=subprocess.PIPE, check=False)
        print('| Lines | Memory, MB |\n|---|---|')
        for count, kilobytes in memory:
            print('| {:,} | {:,.1f} |'.format(count, kilobytes / 1024))
        same = hashlib.sha256(second.stdout).hexdigest() == first
        print('\n{:,} lines, {:,} bytes printed; exit statuses {} and {}; both runs printed {}; the first took {:.0f} s, the second {:.0f} s'.format(
            made, len(second.stdout), status, second.returncode, 'the same' if same else 'NOT THE SAME', passed, time.time() - again))
    return 0 if same and status == second.returncode == 0 else 1


sys.exit(main())
