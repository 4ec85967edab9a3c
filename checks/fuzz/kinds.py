"""The kinds of hostile inputs: how each is given to the program, and what the program may answer."""
import itertools
import os
import re
import shutil
import subprocess
import sys
import time

HERE = os.path.dirname(os.path.abspath(__file__))
CHECKS = os.path.dirname(HERE)
sys.path.insert(0, CHECKS)
sys.path.append(os.path.join(CHECKS, 'model'))

import rows
from answers import REFUSAL, REMARK, Fault, check_answer_line, check_step_line, shapes_of
from wave_tags import tags_of

MARK = '9 ACK [5@0] {} unknown command "mark"'
LIBRARY = ['! limit everyday 1', '! song a.wav 8000 Title=One Artist=Ann Date=2001', '! song b/c.wav 4000 "Title=It\'s \\"so\\"" Artist=Zo\u00eb',
           '! song b/d.wav 12345 Artist=ann Album=First Genre=Folk Track=10/12 Disc=2 AlbumArtist=Various', '! song e/f/g.wav 8 Title=One Comment=x',
           '! song e/h.wav 4000 Album=First Track=9 Composer=Eve']


class Ended:
    """How a run ended."""

    def __init__(self, status, output, errors):
        self.status, self.output, self.errors = status, output, errors

    def lines(self):
        return self.output.decode('utf-8', 'backslashreplace').split('\n')[:-1]

    def error_lines(self):
        return self.errors.decode('utf-8', 'backslashreplace').rstrip('\n').split('\n') if self.errors else []

    def told(self):
        return 'status %s, standard error %r' % (self.status, self.errors[-300:])


class Program:
    """The built program, and how many seconds of processor time a run of it may take."""

    def __init__(self, path, limit):
        self.path, self.limit = path, limit

    def run(self, words, folder, source=os.devnull):
        """Runs the program with a file as its input. It is a fault if the run ends by a signal, or not within the limit."""
        with open(source, 'rb') as stdin:
            process = subprocess.Popen([self.path, *words], cwd=folder, stdin=stdin, stdout=subprocess.PIPE, stderr=subprocess.PIPE)
        output, errors = self.outcome(process)
        ended = Ended(process.returncode, output, errors)
        if ended.status < 0:
            raise Fault('signal %d' % -ended.status, ended.told())
        if ended.status > 1:
            raise Fault('status %d' % ended.status, ended.told())
        return ended

    def outcome(self, process):
        """What a run wrote. It is stopped if it has used the processor for longer than the limit, or only sleeps; a run that waits for
        the processor gets more time."""
        while True:
            try:
                return process.communicate(timeout=self.limit)
            except subprocess.TimeoutExpired:
                used = seconds_of(process.pid)
                if used >= self.limit or is_asleep(process.pid):
                    process.kill()
                    process.communicate()
                    raise Fault('it did not end', 'within %.0f s of processor time' % used) from None


def seconds_of(number):
    """How many seconds of processor time a process has used."""
    with open('/proc/%d/stat' % number) as stat:
        fields = stat.read().rpartition(')')[2].split()
    return (int(fields[11]) + int(fields[12])) / os.sysconf('SC_CLK_TCK')


def is_asleep(number):
    """Whether every thread of a process sleeps, and none waits for the processor or a disk; looks three times, a tenth of a second apart."""
    for _ in range(3):
        time.sleep(0.1)
        for task in os.listdir('/proc/%d/task' % number):
            with open('/proc/%d/task/%s/stat' % (number, task)) as stat:
                if stat.read().rpartition(')')[2].split()[0] not in 'SZ':
                    return False
    return True


def write(path, data):
    with open(path, 'wb') as file:
        file.write(data)


def wave(frames, rate=8000):
    size = len(frames)
    head = b'WAVEfmt \x10\0\0\0\x01\0\x01\0' + rate.to_bytes(4, 'little') * 2 + b'\x01\0\x08\0data' + size.to_bytes(4, 'little')
    return b'RIFF' + (len(head) + size).to_bytes(4, 'little') + head + frames


def put_music(folder):
    """Makes two songs, for the kinds that start the daemon."""
    os.makedirs(os.path.join(folder, 'music', 'b'), exist_ok=True)
    for name in ('a.wav', 'b/c.wav'):
        write(os.path.join(folder, 'music', name), wave(b'\x80' * 800))


def clear(folder, kept=('music',)):
    """Removes what a run left in its folder."""
    for name in set(os.listdir(folder)) - set(kept):
        path = os.path.join(folder, name)
        shutil.rmtree(path) if os.path.isdir(path) and not os.path.islink(path) else os.remove(path)


def check_start(ended):
    """Checks what a start with `--check` printed: either one refusal and status 1, or what it found, and remarks. Returns the lines."""
    lines = ended.error_lines()
    if ended.status == 0 and ended.output.startswith(b'music: ') and all(REMARK.match(line) for line in lines):
        return ended.lines() + lines
    rest = list(itertools.dropwhile(REMARK.match, lines))
    if ended.status == 1 and not ended.output and len(rest) == 1 and REFUSAL.match(rest[0]):
        return lines
    raise Fault('neither a good start nor a proper refusal', ended.told())


def files_in(folder, ending=''):
    """The contents of a folder's files, in the order of their names."""
    for name in sorted(os.listdir(folder)):
        if name.endswith(ending):
            with open(os.path.join(folder, name), 'rb') as file:
                yield file.read()


def row_scripts():
    """The lines of each row: of those of the checks, and of the worked rows."""
    for folder in (rows.FOLDER, rows.WORKED):
        for data in files_in(folder, '.row'):
            lines = [line[2:] if line.startswith(b'> ') else rows.unescaped(line[3:]) for line in data.split(b'\n') if line.startswith((b'> ', b'>e '))]
            yield b'\n'.join(lines) + b'\n'


def client_lines():
    """The lines that clients send in the rows, each once."""
    return sorted({line[2:] for script in row_scripts() for line in script.split(b'\n') if re.match(rb'[1-9] .', line)})


class Kind:
    """Inputs of one kind: how many the program gets in one run, and how long they may be."""
    at_once, most_bytes, is_text, words = 1, 4096, True, ()

    def permits(self, data):
        return True

    def mend(self, draw, data):
        """A mutated input, perhaps with a part corrected that would otherwise hide all other faults."""
        return data

    def seeds(self, folder):
        """The inputs of the corpus."""
        return files_in(folder)

    def close(self, folder):
        pass


class Settings(Kind):
    """A settings file, read by `serve --check`. Inputs with a slash are left out, so that no path leads out of the folder."""
    name = 'settings'
    words = [b'music', b'listen', b'state', b'shelf', b'rate', b'kill', b'everyday', b'random_start', b'history', b'ring', b'[[output]]', b'[output]',
             b'name', b'path', b'enabled', b'patience', b' = ', b'\n', b'"""', b"'''", b'\\n', b'\\u00e9', b'\\U0010ffff', b'\\ud800', b'true',
             b'false', b'0x10', b'1_000', b'inf', b'nan', b'1979-05-27T07:32:00Z', b'{', b'}', b'{ a = 1 }', b'[1, 2]', b'a.b', b'"a"."b"',
             b'[::1]:0', b'localhost:0', b'127.0.0.1:0', b'0.0.0.0:0']

    def permits(self, data):
        return b'/' not in data and not re.search(rb'\\[uU]0*2[fF]', data)

    def run(self, program, folder, inputs):
        put_music(folder)
        write(os.path.join(folder, 'settings.toml'), inputs[0])
        try:
            return [shapes_of(check_start(program.run(['serve', '--config', 'settings.toml', '--check'], folder)))]
        finally:
            clear(folder)


class Wave(Kind):
    """WAVE files, many in one folder, read by `scan`. It must show the tags that the model (checks/model) reads in them."""
    name, at_once, is_text, most_bytes = 'wave', 200, False, 4096
    options, is_everyday = ['--rate', '8000'], False
    words = [b'RIFF', b'RIFX', b'RF64', b'WAVE', b'fmt ', b'data', b'LIST', b'INFO', b'INAM', b'IART', b'IPRD', b'ICRD', b'IGNR', b'ICMT', b'ITRK',
             b'id3 ', b'ID3', b'fact', b'ds64', b'JUNK', b'bext', b'wavl', b'slnt', b'\x01\0\x01\0', b'\x01\0\x02\0', b'\xfe\xff\x02\0',
             bytes.fromhex('0100000000001000800000aa00389b71')]
    REFUSALS = {'NotRiff', 'NoFormat', 'Unsupported', 'NoData'}

    def mend(self, draw, data):
        if draw.randrange(2) and len(data) >= 12:
            return b'RIFF' + (len(data) - 8).to_bytes(4, 'little') + b'WAVE' + data[12:]
        return data

    def run(self, program, folder, inputs):
        songs = os.path.join(folder, 'songs')
        os.makedirs(songs)
        names = ['%04d.wav' % number for number in range(len(inputs))]
        for name, data in zip(names, inputs):
            write(os.path.join(songs, name), data)
        try:
            ended = program.run(['scan', *self.options, 'songs'], folder)
        finally:
            shutil.rmtree(songs)
        found = self.found_in(ended)
        if set(found) - set(names):
            raise Fault('a file that is not there', repr(sorted(set(found) - set(names))[:3]))
        for name, data in zip(names, inputs):
            self.check_length(found.get(name, []), len(data))
            self.check_tags(found.get(name, []), data)
        return [shapes_of(found.get(name, [])) | {self.size_of(found.get(name, []))} for name in names]

    def found_in(self, ended):
        """What was printed for each file: the lines of a song, or why the file was skipped."""
        if ended.status != 0:
            raise Fault('status %d' % ended.status, ended.told())
        found, name = {}, None
        for line in ended.lines():
            check_answer_line(line)
            name = line[len('file: '):] if line.startswith('file: ') else name
            found.setdefault(name, []).append(line)
        for line in ended.error_lines():
            name, _, refusal = line.partition(': ')
            if name in found or refusal not in self.REFUSALS:
                raise Fault('not a reason to skip a file', repr(line[:200]))
            found[name] = [refusal]
        return found

    def check_length(self, lines, size):
        """Checks that a song is not longer than its file allows: a frame takes at least one byte."""
        for line in lines:
            if line.startswith('duration: ') and float(line.partition(': ')[2]) > size / 8000 + 0.001:
                raise Fault('a song that is longer than its file', '%s of %d bytes' % (line, size))

    def check_tags(self, lines, data):
        """Checks the tags that are shown of a song: the lines between its name and its length."""
        wanted = ['%s: %s' % pair for pair in tags_of(data, self.is_everyday).items()]
        if len(lines) > 1 and lines[1:-2] != wanted:
            raise Fault('other tags than the model reads', '%r, and not %r' % (lines[1:-2], wanted))

    def size_of(self, lines):
        """How long a song is, roughly."""
        return next(('length', int(8000 * float(line[10:])).bit_length()) for line in [*lines, 'duration: 0'] if line.startswith('duration: '))


class Id3(Wave):
    """WAVE files with an ID3v2 tag, read by `scan --everyday`."""
    name, most_bytes = 'id3', 10000
    options, is_everyday = ['--everyday', '--rate', '8000'], True
    words = [*Wave.words, b'ID3 ', b'ID3\2\0\0', b'ID3\3\0\0', b'ID3\4\0\0', b'ID3\4\0\x80', b'ID3\4\0\x40', b'TT2', b'TP1', b'COM', b'TYE', b'TRK',
             b'TIT2', b'TPE1', b'TALB', b'TPE2', b'TRCK', b'TPOS', b'TDRC', b'TYER', b'TCON', b'TCOM', b'COMM', b'APIC', b'TXXX', b'ITRK', b'IPRT',
             b'IMUS', b'\0\0\0\1\0\0', b'\0\0\0\4\0\0\0abc', b'\0\0\0\2\0\1', b'\0\2', b'\0\3', b'\0\x40', b'\0\x80', b'\0\x0c', b'\x01\xff\xfe',
             b'\x01\xfe\xff', b'\xff\0', b'\0\0\0', b'\xff\xfe\0\0\xff\xfe', b'\0\0\xfe\xff', b'\xd8\x34\xdd\x1e', b'\x34\xd8\x1e\xdd', b'\xdc\0',
             b'\x03\xef\xbb\xbf', b'\x93\x94', b'\x81', b'A' * 1025]

    def mend(self, draw, data):
        """Often gives the last chunk, which is the tag, its right length, often in a file that is right otherwise; and sometimes the tag its
        right size."""
        begin, how = max(data.rfind(b'id3 '), data.rfind(b'ID3 ')), draw.randrange(4)
        if begin < 12 or how == 0:
            return super().mend(draw, data)
        tag = data[begin + 8:]
        if tag[:3] == b'ID3' and len(tag) >= 10 and draw.randrange(2):
            tag = tag[:6] + bytes(len(tag) - 10 >> shift & 0x7f for shift in (21, 14, 7, 0)) + tag[10:]
        chunk = data[begin:begin + 4] + len(tag).to_bytes(4, 'little') + tag + bytes(len(tag) % 2)
        front = data[12:begin] if how == 1 else wave(b'\x80' * 40)[12:]
        return b'RIFF\xff\xff\xff\xffWAVE' + (chunk + front if how == 2 else front + chunk)


class Lines(Kind):
    """Lines of a client that connects for each of them; many in one script. A line of another client separates their answers."""
    name, at_once, most_bytes = 'lines', 200, 4096
    words = [b'command_list_begin', b'command_list_ok_begin', b'command_list_end', b'window', b'sort', b'position', b'group', b'"(', b')"', b'any',
             b'modified-since', b'base']

    def seeds(self, folder):
        return [line for data in files_in(folder) for line in data.split(b'\n')[:-1]] + [line for line in client_lines() if len(line) <= self.most_bytes]

    def script_of(self, data):
        return [b'1 ' + data.replace(b'\n', b' '), b'! gone 1', b'9 mark']

    def run(self, program, folder, inputs):
        path = os.path.join(folder, 'script')
        front = [line.encode() for line in LIBRARY] + [b'9 mark']
        write(path, b'\n'.join(front + [line for data in inputs for line in self.script_of(data)]) + b'\n')
        ended = program.run(['script'], folder, path)
        os.remove(path)
        if ended.status != 0 or ended.errors:
            raise Fault('status %d' % ended.status, ended.told())
        answers = [[]]
        for line in ended.lines():
            check_step_line(line)
            if line == MARK:
                answers.append([])
            else:
                answers[-1].append(line)
        if len(answers) != len(inputs) + 2:
            raise Fault('lines without an answer', '%d of %d' % (len(inputs) + 2 - len(answers), len(inputs)))
        return [shapes_of(lines) for lines in answers[1:-1]]


class Filters(Lines):
    """Filters, as an argument of `find`, `search`, `count`, `list` and others."""
    name = 'filters'
    commands = [b'find %s', b'search %s', b'count %s', b'list album %s', b'findadd %s', b'find %s sort -date window 0:2', b'playlistfind %s']
    words = [b'(', b')', b'(!', b' AND ', b'==', b'!=', b'=~', b'!~', b'contains', b'starts_with', b'eq_cs', b'eq_ci', b'!contains', b'!starts_with',
             b'Artist', b'albumartist', b'any', b'file', b'base', b'modified-since', b'AudioFormat', b'prio', b"'", b'"', b"\\'", b'\\\\',
             b'44100:16:2', b'2001-01-01T00:00:00Z', b'\xe2\x84\xaa', b'\xc4\xb0']

    def seeds(self, folder):
        found = [it[0] for line in client_lines() for it in [re.search(rb'\(.*\)', line)] if it]
        return [line for data in files_in(folder) for line in data.split(b'\n')[:-1]] + [it for it in found if len(it) <= self.most_bytes]

    def script_of(self, data):
        word = b'"' + data.replace(b'\n', b' ').replace(b'\\', b'\\\\').replace(b'"', b'\\"') + b'"'
        return super().script_of(self.commands[sum(data) % len(self.commands)] % word)


class Scripts(Kind):
    """Whole scripts."""
    name, most_bytes = 'scripts', 8192
    words = [b'! song', b'! limit', b'! gone 1', b'! scanned', b'! want', b'! have 1 1024', b'! failed 1', b'! in default', b'! turn 0 1024 0',
             b'! window', b'! limit history 1', b'! limit max_queue 2', b'! limit max_version 1', b'! limit max_id 3', b'! limit max_cut 2',
             b'! limit everyday 1', b'\n1 ', b'\n2 ', b'\n3 ', b'\n! ', b'\r\n']

    def seeds(self, folder):
        return [*files_in(folder), *files_in(os.path.join(CHECKS, '..', 'examples'), '.txt'), *row_scripts()]

    def run(self, program, folder, inputs):
        path = os.path.join(folder, 'script')
        write(path, inputs[0])
        ended = program.run(['script'], folder, path)
        os.remove(path)
        if ended.status != 0 or ended.errors:
            raise Fault('status %d' % ended.status, ended.told())
        for line in ended.lines():
            check_step_line(line)
        return [shapes_of(ended.lines()[:2000], of_pairs=True)]
