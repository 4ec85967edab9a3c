"""The kinds of hostile inputs for a running daemon: bytes from a client, files of the playlist store, and saved states."""
import errno
import os
import socket
import sqlite3
import struct
import subprocess
import sys
import tempfile

HERE = os.path.dirname(os.path.abspath(__file__))
sys.path.insert(1, os.path.join(os.path.dirname(HERE), 'serve'))

from answers import REFUSAL, REMARK, Fault, check_answer_line, shapes_of
from daemon import Client, Daemon
from kinds import Kind, check_start, clear, is_asleep, put_music, seconds_of, write

LOG_MAGIC = (0x377f0682, 0x377f0683)
START = 300         # how many seconds a daemon may take until it listens, on a busy machine
ENOUGH = 1 << 24    # how many bytes of answers are read at most
HEADER = b'SQLite format 3\0'
# requests to a daemon that has opened a playlist store
QUESTIONS = ['listplaylists', 'listplaylistinfo one', 'listplaylist "two"', 'load one', 'save three', 'playlistadd one a.wav', 'playlistdelete one 0',
             'rename one four', 'sticker list song a.wav', 'sticker find song "" rating', 'sticker set song a.wav rating 3',
             'sticker get playlist two mood', 'sticker delete song a.wav', 'rm two']


def started(program, folder, more='everyday = true', **words):
    try:
        daemon = Daemon(program.path, folder, os.path.join(folder, 'music'), more=more, rate=8000, wait=False, **words)
        daemon.wait_for_port(START)
        return daemon
    except AssertionError as fault:
        raise Fault('it did not start', str(fault)[-300:]) from None


def received(client, daemon, limit):
    """Waits for the next bytes. A daemon that only waits for the processor, and has not used it for longer than the limit, gets more time."""
    before = seconds_of(daemon.process.pid)
    while True:
        try:
            return client.recv(1 << 16)
        except TimeoutError:
            if seconds_of(daemon.process.pid) - before >= limit or is_asleep(daemon.process.pid):
                raise


def asked(program, folder, questions, **words):
    """Starts a daemon, asks it some questions, and ends it, which it must do properly. Returns the shapes of its answers, and of what it said
    on standard error."""
    daemon = started(program, folder, **words)
    try:
        client, lines = Client(daemon.port), []
        client.socket.settimeout(START)
        for question in questions:
            lines += client.ask(question)
        for line in lines:
            check_answer_line(line)
        client.send('kill')
        client.close()
        status = daemon.process.wait(START)
    except (OSError, AssertionError, UnicodeDecodeError, subprocess.TimeoutExpired) as fault:
        raise dead(daemon, repr(fault)) from None
    finally:
        daemon.kill()
    errors = daemon.errors().split('\n')
    if status not in (0, 1) or not all(REMARK.match(line) for line in errors[:-1]) or not (REMARK if status == 0 else REFUSAL).match(errors[-1]):
        raise dead(daemon, 'at its end, status %d' % status)
    return shapes_of(lines + errors)


def dead(daemon, told):
    """The fault of a daemon that has ended, or does not answer."""
    daemon.process.poll()
    status = daemon.process.returncode
    daemon.kill()
    kind = 'no answer' if status is None else 'signal %d' % -status if status < 0 else 'status %d' % status
    return Fault(kind, '%s; standard error %r' % (told, daemon.errors()[-300:]))


class Bytes(Kind):
    """The bytes that a client sends before it disconnects; many clients of one daemon, one after the other. Each must be answered to the end,
    and the daemon must go on serving."""
    name, at_once, most_bytes = 'bytes', 50, 40000
    words = [b'command_list_begin\n', b'command_list_ok_begin\n', b'command_list_end\n', b'idle\n', b'noidle\n', b'\n', b'\r\n', b'\0', b'close\n',
             b'kill\n', b'A' * 17000, b'ping\n' * 100]

    def __init__(self):
        self.daemons = {}

    def run(self, program, folder, inputs):
        daemon = self.daemons.get(folder)
        if not daemon:
            put_music(folder)
            daemon = self.daemons[folder] = started(program, folder, kill=False)
        try:
            self.told(daemon, b'clear\n', program.limit)
            return [shapes_of(self.told(daemon, data, program.limit)) for data in inputs]
        except (OSError, AssertionError) as fault:
            self.daemons.pop(folder)
            raise dead(daemon, repr(fault)) from None

    def told(self, daemon, data, limit):
        """The lines that a client receives, up to the end of the connection, or until it has received enough and disconnects."""
        client = socket.create_connection(('127.0.0.1', daemon.port), START)
        client.settimeout(limit)
        held = b''
        with client:
            try:
                client.sendall(data)
                client.shutdown(socket.SHUT_WR)
                piece = True
                while piece and len(held) < ENOUGH:
                    piece = received(client, daemon, limit)
                    held += piece
            except OSError as fault:
                # The daemon closed the connection before everything was sent, for instance because a line is too long.
                if fault.errno not in (errno.ECONNRESET, errno.EPIPE, errno.ENOTCONN):
                    raise
        lines = held.decode('utf-8', 'backslashreplace').split('\n')[:-1]
        for line in lines:
            check_answer_line(line)
        return lines

    def close(self, folder):
        daemon = self.daemons.pop(folder, None)
        if daemon:
            daemon.kill()


def checksum(data, before, order):
    """The checksums that SQLite's log has for its frames."""
    one, two = before
    for first, second in struct.iter_unpack(order + 'II', data):
        one = (one + first + two) & 0xffffffff
        two = (two + second + one) & 0xffffffff
    return one, two


def mended_log(data):
    """A log whose frames have the right checksums and salts."""
    if len(data) < 32 or struct.unpack_from('>I', data)[0] not in LOG_MAGIC:
        return data
    order = '>' if data[3] & 1 else '<'
    size = struct.unpack_from('>I', data, 8)[0]
    sums = checksum(data[:24], (0, 0), order)
    log = bytearray(data[:24] + struct.pack('>II', *sums) + data[32:])
    if not 512 <= size <= 65536:
        return bytes(log)
    for at in range(32, len(log) - 24 - size + 1, 24 + size):
        log[at + 8:at + 16] = log[16:24]
        sums = checksum(bytes(log[at:at + 8]) + bytes(log[at + 24:at + 24 + size]), sums, order)
        log[at + 16:at + 24] = struct.pack('>II', *sums)
    return bytes(log)


def is_whole(path):
    """Whether sqlite3 finds a file intact."""
    try:
        with sqlite3.connect(path) as store:
            return store.execute('PRAGMA integrity_check').fetchall() == [('ok',)]
    except (sqlite3.Error, ValueError, OverflowError):
        return False


class Shelf(Kind):
    """A file of the playlist store, or a log next to one. It is read by `serve --check`, and if that accepts it, by a daemon, which is then asked
    what is in it."""
    name, is_text, most_bytes = 'shelf', False, 65536
    words = [HEADER, b'CREATE TABLE ', b'CREATE INDEX ', b'list', b'sticker', b'note', b'profile', b'sqlite_autoindex_list_1', b'table', b'index',
             b'PRIMARY KEY', b'\x0d\0\0\0', b'\x05\0\0\0', b'\x0a\0\0\0', b'\x02\0\0\0', b'\x7f\xff\xff\xff', b'\x81\x80\x80\x80\x80\x80\x80\x80\x80']

    def seeds(self, folder):
        """Each file of SQL statements gives the database that sqlite3 makes from it. If it has a line `-- log`, it gives the log that the
        statements after that line leave, next to the database that those before it make."""
        self.base = b''
        for data in super().seeds(folder):
            before, _, logged = data.decode().partition('-- log\n')
            file, log = files_of(before, logged)
            if log:
                self.base = self.base or file
                yield log
            else:
                yield file

    def mend(self, draw, data):
        if draw.randrange(4) == 0:
            return data
        return mended_log(data) if data[:3] == b'\x37\x7f\x06' else HEADER + data[16:]

    def run(self, program, folder, inputs):
        put_music(folder)
        path, data = os.path.join(folder, 'shelf'), inputs[0]
        is_log = data[:3] == b'\x37\x7f\x06'
        try:
            self.put(path, data, is_log)
            was_whole = not is_log and is_whole(path)
            self.put(path, data, is_log)
            write(os.path.join(folder, 'settings.toml'), b'music = "music"\nlisten = "127.0.0.1:0"\nshelf = "shelf"\n')
            ended = program.run(['serve', '--config', 'settings.toml', '--check'], folder)
            shapes = shapes_of(check_start(ended))
            if ended.status == 0:
                self.put(path, data, is_log)
                shapes = shapes | asked(program, folder, QUESTIONS, shelf=path)
            if was_whole and not is_whole(path):
                raise Fault('a file that is no longer intact', '')
            return [shapes]
        finally:
            clear(folder)

    def put(self, path, data, is_log):
        write(path, self.base if is_log else data)
        for ending in ('-wal', '-journal', '-shm'):
            if os.path.exists(path + ending):
                os.remove(path + ending)
        if is_log:
            write(path + '-wal', data)


class State(Kind):
    """A saved state, which a daemon reads when it starts. If it refuses lines of the state, it must keep a copy of the file."""
    name, most_bytes = 'state', 16384
    questions = ['status', 'playlistinfo', 'outputs', 'currentsong', 'addid a.wav']

    def run(self, program, folder, inputs):
        put_music(folder)
        path = os.path.join(folder, 'state')
        write(path, inputs[0])
        try:
            shapes = asked(program, folder, self.questions, outputs=[os.path.join(folder, 'never read')], more='everyday = true\nstate = "%s"' % path)
            has_refused = any(shape.startswith('said: state: ') for shape in shapes if isinstance(shape, str))
            if has_refused != os.path.exists(path + '.refused'):
                raise Fault('a state with refused lines of which no copy is kept' if has_refused else 'a copy of a state without refused lines', '')
            return [shapes]
        finally:
            clear(folder)


def files_of(before, logged):
    """The database that some statements make, and the log that further statements leave next to it."""
    with tempfile.TemporaryDirectory() as folder:
        path = os.path.join(folder, 'shelf')
        store = sqlite3.connect(path, isolation_level=None)
        store.executescript(before)
        if logged:
            store.execute('PRAGMA journal_mode = WAL')
            store.execute('PRAGMA wal_checkpoint(TRUNCATE)')
            store.executescript(logged)
        parts = []
        for ending in ('', '-wal'):
            with open(path + ending, 'rb') if os.path.exists(path + ending) else open(os.devnull, 'rb') as file:
                parts.append(file.read())
        store.close()
        return parts
