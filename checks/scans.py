"""Checks the program's scan: what it prints for several folders and on a terminal, its exit statuses, and what it does when memory is
refused."""
import os
import pty
import re
import subprocess
import tempfile

import example_music
from program import LIMIT, show_failures

# a WAVE file with one channel of 24 bits at 8,000 frames a second, the title `Hi`, and two frames; the data is said to be longer than the file
WAVE = bytes.fromhex('52494646 00000000 57415645 666d7420 10000000 0100 0100 401f0000 c05d0000 0300 1800'
                     '4c495354 10000000 494e464f 494e414d 03000000 486900 00 64617461 64000000 000100 ffffff 7f')
SONG = b'file: %s\nTitle: Hi\nTime: 0\nduration: 0.000\n'
# a file with a list INFO and an ID3v2 tag, and what is shown of it in the base profile and in the everyday profile
TAGGED = os.path.join(os.path.dirname(os.path.abspath(__file__)), 'fuzz', 'corpus', 'id3', 'beside_info.wav')
SIX = b'file: x.wav\nTitle: Listed\nArtist: Ann\nTime: 0\nduration: 0.005\n'
TEN = b'file: x.wav\nTitle: One\nArtist: Ann\nTrack: 3\nTime: 0\nduration: 0.005\n'

EXAMPLE = b'''file: bell.wav
Title: Bell
Artist: Ann
Album: Small sounds
Date: 2026
Time: 0
duration: 0.038
file: chord.wav
Title: Two voices
Artist: Ann and Bob
Genre: Exercise
Time: 0
duration: 0.009
file: evening/hum.wav
Title: Hum
Comment: one hundred and ten a second
Time: 0
duration: 0.020
'''


def put(folder, files):
    for name, data in files.items():
        path = os.path.join(folder, name)
        os.makedirs(os.path.dirname(path), exist_ok=True)
        with open(path, 'wb') as file:
            file.write(data)


class Checks:
    def __init__(self, program):
        self.program, self.failures = program, []

    def wants(self, what, words, status, output, errors):
        run = self.program.run(b'', words)
        if (run.status, run.output, run.errors) != (status, output, errors):
            self.failures.append('%s: %s' % (what, run.told(output)))

    def songs_and_refusals(self, folder):
        put(folder, {'x.wav': WAVE, 'b/X.WAV': WAVE, 'a.wav': b'no', 'empty.wav': WAVE[:68], 'b/form.wav': WAVE[:30], 'y.txt': WAVE,
                     'b/tag.wav': WAVE[:20] + b'\3' + WAVE[21:], 'b/data.wav': WAVE[:60]})
        songs = SONG % b'b/X.WAV' + SONG % b'x.wav'
        refused = b'a.wav: NotRiff\nb/data.wav: NoData\nb/form.wav: NoFormat\nb/tag.wav: Unsupported\n'
        self.wants('a folder', ('scan', '--rate', '8000', folder), 0, songs, refused)
        self.wants('its rate after an equals sign', ('scan', '--rate=8000', folder), 0, songs, refused)
        self.wants('its rate after the folder', ('scan', folder, '--rate', '8000'), 0, songs, refused)
        self.wants('after two hyphens', ('scan', '--rate', '8000', '--', folder), 0, songs, refused)
        self.wants('a file', ('scan', os.path.join(folder, 'x.wav')), 1, b'',
                   b'music_daemon: cannot read folder %s\n' % os.fsencode(os.path.join(folder, 'x.wav')))
        self.wants('no folder', ('scan', 'nosuch'), 1, b'', b'music_daemon: cannot read folder nosuch\n')
        self.wants('a line break in its name', ('scan', 'no\nsuch'), 1, b'', b'music_daemon: cannot read folder no\\nsuch\n')

    def example(self):
        for name in example_music.files():
            with open(os.path.join(example_music.FOLDER, name), 'rb') as file:
                if file.read() != example_music.files()[name]:
                    self.failures.append('examples/music/%s is not what checks/example_music.py writes' % name)
        self.wants('examples/music', ('scan', example_music.FOLDER), 0, EXAMPLE, b'notes.wav: NotRiff\n')

    def everyday(self, folder):
        with open(TAGGED, 'rb') as file:
            put(folder, {'x.wav': file.read()})
        self.wants('tags in the base profile', ('scan', '--rate', '8000', folder), 0, SIX, b'')
        self.wants('tags in the everyday profile', ('scan', '--everyday', '--rate', '8000', folder), 0, TEN, b'')
        self.wants('the same behind the folder', ('scan', folder, '--rate=8000', '--everyday'), 0, TEN, b'')

    def full_device(self, folder):
        for stream in ('stdout', 'stderr'):
            with open('/dev/full', 'wb') as full:
                streams = {'stdout': subprocess.PIPE, 'stderr': subprocess.PIPE, stream: full}
                run = subprocess.run([self.program.path, 'scan', '--rate', '8000', folder], timeout=LIMIT, check=False, **streams)
            told = b'music_daemon: write fault\n' if stream == 'stdout' else None
            if run.returncode != 1 or run.stderr != told:
                self.failures.append('a full %s: status %d, %r' % (stream, run.returncode, run.stderr))

    def memory(self, *words):
        """Refuses each allocation in turn: the scan must print everything, or exit with status 1 and print only one line."""
        whole = self.program.run(b'', ('scan', '--rate', '8000', *words))
        number = 0
        while len(self.failures) < 20:
            number += 1
            environment = dict(os.environ, LD_PRELOAD=self.program.library, FAULTY_REPORT=self.program.report, FAULTY_ALLOCATION=str(number))
            if os.path.exists(self.program.report):
                os.remove(self.program.report)
            run = self.program.run_on_file(b'', ('scan', '--rate', '8000', *words), environment)
            if run.counts and run.counts['allocations'] < number:
                break
            if (run.status, run.output, run.errors) not in ((0, whole.output, whole.errors), (1, b'', b'music_daemon: out of memory\n')):
                self.failures.append('allocation %d: %s' % (number, run.told(whole.output)))
        print('  %d allocations refused in turn' % (number - 1))

    def too_many(self, folder):
        """A folder of 100,001 songs, which are hard links; a file cannot have so many links, so there are four files."""
        for number in range(4):
            put(folder, {'%d/0.wav' % number: WAVE})
        for number in range(4, 100001):
            os.link(os.path.join(folder, '%d/0.wav' % (number % 4)), os.path.join(folder, '%d/%d.wav' % (number % 4, number)))
        self.wants('100,001 songs', ('scan', '--rate', '8000', folder), 1, b'', b'music_daemon: too many songs\n')
        os.remove(os.path.join(folder, '0/4.wav'))
        run = self.program.run(b'', ('scan', '--rate', '8000', folder))
        if run.status != 0 or run.errors or run.output.count(b'file: ') != 100000:
            self.failures.append('100,000 songs: ' + run.told())

    def terminal(self, folder):
        """Checks that on a terminal a long scan shows its progress, and clears that line before it ends."""
        ours, its = pty.openpty()
        run = subprocess.Popen([self.program.path, 'scan', '--rate', '8000', folder], stdout=subprocess.DEVNULL, stderr=its)
        os.close(its)
        told = b''
        try:
            while piece := os.read(ours, 4096):
                told += piece
        except OSError:  # the other end is closed
            pass
        os.close(ours)
        if run.wait() != 0 or not re.fullmatch(rb'(\r\d+ files seen, \d+ a second\x1b\[K)+\r\x1b\[K', told):
            self.failures.append('on a terminal: status %d, %r' % (run.returncode, told[:200]))


def check(program):
    """Prints what fails, and returns the number of failures."""
    print('Scans')
    checks = Checks(program)
    with tempfile.TemporaryDirectory() as top:
        few, many, tagged = os.path.join(top, 'few'), os.path.join(top, 'many'), os.path.join(top, 'tagged')
        checks.songs_and_refusals(few)
        checks.everyday(tagged)
        checks.full_device(few)
        checks.memory(few)
        checks.memory('--everyday', tagged)
        checks.too_many(many)
        checks.terminal(many)
    checks.example()
    print('  %d failed' % len(checks.failures))
    return show_failures(checks.failures)
