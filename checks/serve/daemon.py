"""Reads the arguments of a check; starts a daemon, or MPD, for it; makes its songs; and connects clients to it."""
import argparse
import os
import re
import socket
import struct
import subprocess
import sys
import tempfile
import threading
import time

HERE = os.path.dirname(os.path.abspath(__file__))
ROOT = os.path.dirname(os.path.dirname(HERE))
BUILT = os.path.join(ROOT, 'crates', 'music_daemon', 'out', 'music_daemon')
START = 30     # how many seconds a daemon may take until it listens
ANSWER = 30    # how many seconds an answer may take
END = 30       # how many seconds a daemon may take to end
# the usual lines on standard error: about the start, scans, outputs and the end
USUAL = re.compile(r'music_daemon: (?:version |scan(?: in \d+ ms)?: |output \d+: |end: )')


def program_of(path):
    """The program at this path, or else the one that was built in the repository."""
    path = os.path.abspath(path or BUILT)
    if not os.access(path, os.X_OK):
        sys.exit('%s: there is no such program; build it first' % path)
    return path


def arguments_of(description):
    """A parser of the arguments of a check, of which the first is the built program."""
    parser = argparse.ArgumentParser(description=description)
    parser.add_argument('program', nargs='?', help='the built program (default: crates/music_daemon/out/music_daemon)')
    return parser


def given_to(description, **numbers):
    """The arguments that a check was given: the program, and options that are whole numbers or seconds. An option is told here by its default and
    by what --help says of it."""
    parser = arguments_of(description)
    for name, (default, meaning) in numbers.items():
        parser.add_argument('--' + name, type=type(default), default=default, help='%s (default: %s)' % (meaning, format(default, ',.0f')))
    return parser.parse_args()


# Between its fork and its exec, a child process has everything open that other threads have open. The port that `free_port` tries out must not
# be among it, so no process is started meanwhile.
STARTS = threading.Lock()


def free_port():
    with STARTS, socket.socket() as door:
        door.bind(('127.0.0.1', 0))
        return door.getsockname()[1]


def wave(frames, channels=2, bits=16, rate=44100, extensible=False, tags=()):
    """The bytes of a WAVE file. A frame is a tuple of whole numbers, which are unsigned for 8 bits."""
    width = bits // 8
    form = struct.pack('<HHIIHH', 0xfffe if extensible else 1, channels, rate, rate * channels * width, channels * width, bits)
    if extensible:
        form += struct.pack('<HHI', 22, bits, 0) + bytes.fromhex('0100000000001000800000aa00389b71')
    data = b''.join(sample.to_bytes(width, 'little', signed=bits > 8) for frame in frames for sample in frame)
    info = b'INFO' + b''.join(chunk(name, text.encode() + b'\0') for name, text in tags)
    parts = b'WAVE' + chunk(b'fmt ', form) + (chunk(b'LIST', info) if tags else b'') + chunk(b'data', data)
    return b'RIFF' + struct.pack('<I', len(parts)) + parts


def chunk(name, content):
    return name + struct.pack('<I', len(content)) + content + bytes(len(content) % 2)


def put_songs(folder, count, frames, rate=44100):
    """Writes so many silent songs with tags, ten in each folder. Each has so many frames, of 8 bits and one channel."""
    for number in range(count):
        below = os.path.join(folder, 'album %02d' % (number // 10))
        os.makedirs(below, exist_ok=True)
        tags = [(b'INAM', 'Song %d' % number), (b'IART', 'Artist %d' % (number % 7)), (b'IPRD', 'Album %d' % (number // 10))]
        with open(os.path.join(below, '%04d.wav' % number), 'wb') as file:
            head = wave([], 1, 8, rate, tags=tags)
            file.write(head[:-4] + struct.pack('<I', frames) + b'\x80' * frames)


def uri_of(number):
    """The URI of a song that `put_songs` has written, by its number from 0."""
    return 'album %02d/%04d.wav' % (number // 10, number)


class Client:
    """A client that sends lines and reads answers."""

    def __init__(self, port, greeted=True):
        self.socket = socket.create_connection(('127.0.0.1', port), ANSWER)
        self.socket.setsockopt(socket.IPPROTO_TCP, socket.TCP_NODELAY, 1)
        self.held = b''
        if greeted:
            self.greeting = self.line()

    def line(self):
        """The next line; an empty text if the daemon has closed the connection."""
        while b'\n' not in self.held:
            piece = self.socket.recv(1 << 20)
            if not piece:
                return ''
            self.held += piece
        line, _, self.held = self.held.partition(b'\n')
        return line.decode()

    def send(self, text):
        self.socket.sendall(text.encode() + b'\n')

    def answer(self):
        """The lines of an answer, of which the last is `OK` or an `ACK`."""
        lines = []
        while True:
            lines.append(self.line())
            if lines[-1] in ('', 'OK') or lines[-1].startswith('ACK '):
                return lines

    def ask(self, text):
        self.send(text)
        return self.answer()

    def must(self, text):
        """The lines of an answer that must be a success, without the `OK`."""
        lines = self.ask(text)
        if lines[-1] != 'OK':
            raise AssertionError('%s: %s' % (text, lines[-1] or 'the connection was closed'))
        return lines[:-1]

    def value(self, text, key):
        """The first value of a key in the answer to a request, or None."""
        return next(iter(values(self.must(text), key)), None)

    def pings(self, count):
        """Sends so many pings at once, and reads their answers."""
        self.socket.sendall(b'ping\n' * count)
        held = b''
        while len(held) < 3 * count:
            held += self.socket.recv(4096)
        if held != b'OK\n' * count:
            raise AssertionError(held)

    def close(self):
        self.socket.close()


def values(lines, key):
    """The values of a key in an answer."""
    return [line[len(key) + 2:] for line in lines if line.startswith(key + ': ')]


def quoted(text):
    """A text as a word of a line."""
    return '"%s"' % text.replace('\\', '\\\\').replace('"', '\\"')


def path_of_link(link):
    """Where a link leads; None if it is gone."""
    try:
        return os.readlink(link)
    except FileNotFoundError:
        return None


class Child:
    """A process that a check has started. If it is used in a `with`, it is killed at the end of this."""

    def kill(self):
        self.process.kill()
        self.process.wait()

    def __enter__(self):
        return self

    def __exit__(self, *fault):
        self.kill()


class Process(Child):
    """A running server, and what the system says about it."""

    def __init__(self, words, port, folder, wait=True, environment=None):
        self.port = port
        self.told = open(os.path.join(folder, 'told'), 'w+b')
        self.faults = open(os.path.join(folder, 'faults'), 'w+b')
        with STARTS:
            self.process = subprocess.Popen(words, stdin=subprocess.DEVNULL, stdout=self.told, stderr=self.faults, env=environment)
        if wait:
            self.wait_for_port()

    def wait_for_port(self, seconds=START):
        end = time.monotonic() + seconds
        while time.monotonic() < end:
            if self.process.poll() is not None:
                raise AssertionError('it ended with status %d: %s' % (self.process.returncode, self.errors()))
            try:
                Client(self.port).close()
                return
            except OSError:
                time.sleep(0.02)
        self.kill()
        raise AssertionError('it does not listen on its port')

    def client(self):
        return Client(self.port)

    def errors(self):
        self.faults.seek(0)
        return self.faults.read().decode(errors='replace').strip()

    def unusual(self):
        """What it said on standard error, without the usual lines about its start, its scans, its outputs and its end."""
        return '\n'.join(line for line in self.errors().splitlines() if not USUAL.match(line))

    def output(self):
        self.told.seek(0)
        return self.told.read().decode(errors='replace')

    def memory(self):
        """Its memory in MB."""
        with open('/proc/%d/status' % self.process.pid) as status:
            return next(int(line.split()[1]) for line in status if line.startswith('VmRSS')) / 1000

    def seconds(self):
        """How many seconds of processor time it has used."""
        with open('/proc/%d/stat' % self.process.pid) as stat:
            fields = stat.read().rpartition(')')[2].split()
        return (int(fields[11]) + int(fields[12])) / os.sysconf('SC_CLK_TCK')

    def files(self):
        return len(os.listdir('/proc/%d/fd' % self.process.pid))

    def paths(self):
        """Its open files, as their paths; one without a path, such as a socket, has the system's name for it, such as `socket:[123]`."""
        folder = '/proc/%d/fd' % self.process.pid
        return [path for path in map(path_of_link, [os.path.join(folder, name) for name in os.listdir(folder)]) if path]


class Daemon(Process):
    """music_daemon, with a settings file that is written here."""

    def __init__(self, program, folder, music, outputs=(), shelf=None, kill=True, rate=44100, more='', wait=True, environment=None):
        self.settings = os.path.join(folder, 'settings.toml')
        port = free_port()
        lines = ['music = "%s"' % music, 'listen = "127.0.0.1:%d"' % port, 'rate = %d' % rate, 'kill = %s' % ('true' if kill else 'false')]
        if shelf:
            lines.append('shelf = "%s"' % shelf)
        lines.append(more)
        for number, output in enumerate(outputs):
            path, enabled = output if isinstance(output, tuple) else (output, True)
            lines += ['[[output]]', 'name = "out%d"' % number, 'path = "%s"' % path, 'enabled = %s' % ('true' if enabled else 'false')]
        with open(self.settings, 'w') as file:
            file.write('\n'.join(lines) + '\n')
        super().__init__([program, 'serve', '--config', self.settings], port, folder, wait, environment)

    def end(self):
        """Ends it with `kill`: its exit status, and the lines of its summary."""
        client = self.client()
        client.send('kill')
        client.close()
        status = self.process.wait(END)
        return status, self.output().splitlines()


NULL = 'type "null"'


class Mpd(Process):
    """Debian's MPD, on a folder of music. An output is given as the lines of its block in the settings, without its name."""

    def __init__(self, folder, music, clients=100, outputs=(NULL,)):
        port = free_port()
        own = os.path.join(folder, 'mpd')
        os.makedirs(os.path.join(own, 'lists'), exist_ok=True)
        conf = os.path.join(own, 'mpd.conf')
        with open(conf, 'w') as file:
            file.write('\n'.join([
                'music_directory "%s"' % music, 'playlist_directory "%s/lists"' % own, 'db_file "%s/database"' % own,
                'sticker_file "%s/stickers"' % own, 'log_file "%s/log"' % own, 'bind_to_address "127.0.0.1"', 'port "%d"' % port,
                'max_connections "%d"' % clients,
                *['audio_output {\nname "out%d"\n%s\n}' % one for one in enumerate(outputs)]]) + '\n')
        super().__init__(['mpd', '--no-daemon', conf], port, own)
        client = self.client()
        client.must('update')
        while client.value('status', 'updating_db'):
            time.sleep(0.05)
        client.close()


class Pacer(Child):
    """A FIFO with a reader that reads so many frames a second, like a sound card."""

    CODE = 'import sys, time\nfile = open(sys.argv[1], "rb", 0)\nrate = int(sys.argv[2])\nstart = time.monotonic()\ndone = 0\n' \
        'while True:\n    piece = file.read(4096)\n    if not piece:\n        break\n    done += len(piece)\n' \
        '    time.sleep(max(0, start + done / (4 * rate) - time.monotonic()))\n'

    def __init__(self, path, rate=44100):
        os.mkfifo(path)
        self.path = path
        self.process = subprocess.Popen([sys.executable, '-c', self.CODE, path, str(rate)])


class Table:
    """A table whose rows are printed one by one; counts how many of them were wrong."""

    def __init__(self, title, *widths):
        self.widths, self.failed = widths, 0
        print(title)

    def row(self, *cells, right=True):
        shown = [str(cell).rjust(-width) if width < 0 else str(cell).ljust(width) for cell, width in zip(cells, self.widths)]
        print('  ' + '  '.join(shown).rstrip() + ('' if right else '  FAILED'), flush=True)
        self.failed += not right

    def status(self):
        """Prints how many rows were wrong, and returns the exit status."""
        return status_of(self.failed)


def status_of(failed):
    """Prints how many times something was wrong, and returns the exit status."""
    print('\n%d failed' % failed)
    return 1 if failed else 0


def check_each(program, table, checks, rate, songs=3):
    """Runs each check with a new folder, in which there are so many songs of twenty seconds; returns the exit status."""
    for check in checks:
        with tempfile.TemporaryDirectory() as folder:
            music = os.path.join(folder, 'music')
            put_songs(music, songs, 20 * rate)
            check(table, program, folder, music)
    return table.status()
