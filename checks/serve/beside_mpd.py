#!/usr/bin/env python3
"""Compares the daemon with MPD on the same folder of music: round trips, long answers, command lists, `idle` notices and memory; and what
they cost while they play.

    checks/serve/beside_mpd.py [PROGRAM] [--rounds N]

It needs Debian's package mpd. Each figure is the best of a few rounds, in which the two servers take turns. It prints both figures and their
ratio, and fails if an answer took 40 ms or more, as it does when TCP delays an acknowledgement. The part of each round trip that this script
itself takes, in Python, is the same for both; the first line shows how long that is, by a round trip to a server that only echoes lines.
"""
import os
import selectors
import shutil
import socket
import statistics
import sys
import tempfile
import threading
import time

sys.dont_write_bytecode = True

import pairs
from daemon import Client, Daemon, Mpd, Table, given_to, program_of, put_songs

LATE = 0.040   # how many seconds TCP may delay an acknowledgement
ENTRIES = 16_000
EDITS = 200     # how many edits of a long queue one command list has


class Echo(threading.Thread):
    """A server that just answers each line with `OK`, which shows what any round trip costs on this machine."""

    def __init__(self):
        super().__init__(daemon=True)
        self.door = socket.create_server(('127.0.0.1', 0))
        self.port = self.door.getsockname()[1]
        self.start()

    def run(self):
        line, _ = self.door.accept()
        line.setsockopt(socket.IPPROTO_TCP, socket.TCP_NODELAY, 1)
        line.sendall(b'OK echo\n')
        while line.recv(4096):
            line.sendall(b'OK\n')


def round_trips(client, text, count):
    """The median round trip in microseconds, and the slowest one in seconds."""
    times = []
    for _ in range(count):
        start = time.perf_counter()
        client.must(text)
        times.append(time.perf_counter() - start)
    return statistics.median(times) * 1e6, max(times)


def side_by_side(port, clients, count):
    """Microseconds for each ping if so many clients ping at the same time, each one again after its answer; and the slowest ping."""
    all_of_them = [Client(port) for _ in range(clients)]
    slowest, answers, since = 0.0, 0, {}
    with selectors.DefaultSelector() as ready:
        for client in all_of_them:
            ready.register(client.socket, selectors.EVENT_READ, client)
            since[client] = time.perf_counter()
            client.socket.sendall(b'ping\n')
        begin = time.perf_counter()
        while answers < count:
            for key, _ in ready.select(5):
                key.data.socket.recv(4096)
                now = time.perf_counter()
                slowest, answers = max(slowest, now - since[key.data]), answers + 1
                since[key.data] = now
                key.data.socket.sendall(b'ping\n')
        passed = time.perf_counter() - begin
    for client in all_of_them:
        client.close()
    return passed / answers * 1e6, slowest


def in_flight(client, depth, count):
    """Microseconds for each ping if so many are sent together on one connection; and the longest wait for all their answers."""
    slowest, begin = 0.0, time.perf_counter()
    for _ in range(count // depth):
        start = time.perf_counter()
        client.socket.sendall(b'ping\n' * depth)
        for _ in range(depth):
            client.line()
        slowest = max(slowest, time.perf_counter() - start)
    return (time.perf_counter() - begin) / (count // depth * depth) * 1e6, slowest


def in_one_piece(client, text, count):
    """Milliseconds until a long answer has arrived completely, and how many bytes it has."""
    best, size = float('inf'), 0
    for _ in range(count):
        start = time.perf_counter()
        client.send(text)
        held = bytearray()
        while not held.endswith(b'\nOK\n'):
            held += client.socket.recv(1 << 20)
        best, size = min(best, time.perf_counter() - start), len(held)
    return best * 1e3, size


def list_of_adds(client, uri, count):
    """Milliseconds that a command list of so many `add`s takes."""
    text = 'command_list_begin\n' + ('add "%s"\n' % uri) * count + 'command_list_end'
    start = time.perf_counter()
    client.must(text)
    return (time.perf_counter() - start) * 1e3


def list_of(client, lines):
    """Microseconds that each command of a command list takes."""
    start = time.perf_counter()
    client.must('\n'.join(['command_list_begin', *lines, 'command_list_end']))
    return (time.perf_counter() - start) * 1e6 / len(lines)


def list_onto(client, uri):
    """Milliseconds that a command list of 1,000 `add`s takes if the queue has 15,000 entries."""
    client.must('delete 15000:')
    return list_of_adds(client, uri, 1000)


def beside_reader(server):
    """Milliseconds of a ping (99 of 100 are as fast or faster) while another client asks for the whole queue again and again."""
    reader, client, times, over = server.client(), server.client(), [], threading.Event()

    def read():
        while not over.is_set():
            in_one_piece(reader, 'playlistinfo', 1)
    thread = threading.Thread(target=read)
    thread.start()
    for _ in range(300):
        start = time.perf_counter()
        client.must('ping')
        times.append(time.perf_counter() - start)
        time.sleep(0.002)
    over.set()
    thread.join()
    for one in (reader, client):
        one.close()
    return sorted(times)[len(times) * 99 // 100] * 1e3


def notices(port, clients, count):
    """Microseconds from a change until the last of so many waiting clients gets its notice: the median, and the slowest in seconds."""
    changer = Client(port)
    waiting = [Client(port) for _ in range(clients)]
    times = []
    changer.must('repeat 1')
    for number in range(count):
        for client in waiting:
            client.send('idle options')
        # Gives the server time to let all of them wait before the change comes.
        time.sleep(0.02)
        start = time.perf_counter()
        changer.send('repeat %d' % (number % 2))
        for client in waiting:
            client.answer()
        times.append(time.perf_counter() - start)
        changer.answer()
    for client in waiting + [changer]:
        client.close()
    return statistics.median(times) * 1e6, max(times)


def one_round(server, songs, found):
    """Measures a server once, and keeps each figure if it is the best so far: the number, its unit, and the slowest answer, if known."""
    def keep(name, unit, figure, slowest=None):
        if name not in found or figure < found[name][0]:
            found[name] = (figure, unit, slowest)
    client = server.client()
    client.must('consume 0')
    client.must('clear')
    keep('ping, 1 client', 'us', *round_trips(client, 'ping', 2000))
    keep('ping, 16 clients', 'us', *side_by_side(server.port, 16, 8000))
    keep('ping, 64 in flight', 'us', *in_flight(client, 64, 12800))
    keep('status', 'us', *round_trips(client, 'status', 1000))
    keep('ping, in a list of 1,000', 'us', min(list_of(client, ['ping'] * 1000) for _ in range(20)))
    keep('a list of 1,000 adds', 'ms', list_of_adds(client, songs[0], 1000))
    client.must('delete 100:')
    keep('playlistinfo, 100 entries', 'ms', in_one_piece(client, 'playlistinfo', 20)[0])
    keep('an idle notice, 1 client', 'us', *notices(server.port, 1, 30))
    keep('an idle notice, 60 clients', 'us', *notices(server.port, 60, 30))
    client.must('clear')
    fill(client, songs)
    keep('playlistinfo, 16,000 entries', 'ms', in_one_piece(client, 'playlistinfo', 3)[0])
    keep('status, 16,000 entries', 'us', *round_trips(client, 'status', 500))
    keep('memory, 16,000 entries', 'MB', server.memory())
    long_queue(server, client, songs, keep)
    client.close()


def long_queue(server, client, songs, keep):
    """Measures edits of a queue of 16,000 entries, questions to it, and pings while another client reads it; then empties the queue."""
    keep('a list of 1,000 adds onto 15,000', 'ms', list_onto(client, songs[0]))
    ids = [line[4:] for line in client.must('plchangesposid 0 0:%d' % EDITS) if line.startswith('Id: ')]
    keep('deleteid of the first, in a list', 'us', list_of(client, ['deleteid ' + number for number in ids]))
    keep('addid URI 0, in a list', 'us', list_of(client, ['addid "%s" 0' % songs[0]] * EDITS))
    version = client.value('status', 'playlist')
    client.must('swap 100 9000')
    keep('plchangesposid after a change', 'us', *round_trips(client, 'plchangesposid ' + version, 500))
    keep('shuffle, 16,000 entries', 'us', *round_trips(client, 'shuffle', 50))
    for line in ('random 1', 'play 0', 'pause 1'):
        client.must(line)
    keep('status, paused in random order', 'us', *round_trips(client, 'status', 500))
    for line in ('stop', 'random 0'):
        client.must(line)
    keep('ping during playlistinfo, 99th of 100', 'ms', beside_reader(server))
    client.must('clear')
    keep('memory, empty again', 'MB', server.memory())


def measure(servers, songs, rounds):
    """All figures of each server, by name. The servers take turns, so that whatever else the machine does affects both."""
    found = {name: {} for name in servers}
    for _ in range(rounds):
        for name, server in servers.items():
            one_round(server, songs, found[name])
    return found


def fill(client, songs):
    """Fills the queue with 16,000 entries, by command lists of 1,000."""
    for start in range(0, ENTRIES, 1000):
        lines = ['add "%s"' % songs[(start + number) % len(songs)] for number in range(1000)]
        client.must('\n'.join(['command_list_begin', *lines, 'command_list_end']))


def shown(figure, unit):
    return '%.0f %s' % (figure, unit) if figure >= 100 else '%.1f %s' % (figure, unit) if figure >= 1 else '%.3f %s' % (figure, unit)


def main():
    given = given_to('Compares the daemon with MPD.', rounds=(3, 'how many rounds are measured'))
    program = program_of(given.program)
    if not shutil.which('mpd'):
        print('mpd is not installed (Debian: apt-get install mpd), so only the daemon is measured')
    with tempfile.TemporaryDirectory() as folder:
        music = os.path.join(folder, 'music')
        put_songs(music, 1000, 441)
        own = os.path.join(folder, 'own')
        os.mkdir(own)
        servers = {'music_daemon': Daemon(program, own, music, ['/dev/null'])}
        if shutil.which('mpd'):
            servers['mpd'] = Mpd(folder, music)
        echo = Client(Echo().port)
        print('A round trip to a server that only echoes: %.1f us' % round_trips(echo, 'ping', 2000)[0])
        table = Table('Next to MPD (the best of %d rounds; round trips are medians)' % given.rounds, 36, -14, -14, -8, -16)
        table.row('', *servers, 'ratio', 'slowest answer')
        client = servers['music_daemon'].client()
        songs = sorted(line[6:] for line in client.must('listall') if line.startswith('file: '))
        client.close()
        found = measure(servers, songs, given.rounds)
        for name, (figure, unit, slowest) in found['music_daemon'].items():
            cells = [shown(figure, unit)]
            if 'mpd' in found:
                other = found['mpd'][name][0]
                cells += [shown(other, unit), '%.2f' % (figure / other) if other else '-']
            else:
                cells += ['', '']
            late = slowest is not None and slowest >= LATE
            table.row(name, *cells, '' if slowest is None else '%.1f ms' % (slowest * 1e3), right=not late)
        for server in servers.values():
            server.kill()
        apart = os.path.join(folder, 'pairs')
        os.mkdir(apart)
        for name, unit, figures in pairs.figures(program, apart, 'mpd' in servers):
            own, other = figures['music_daemon'], figures.get('mpd')
            table.row(name, shown(own, unit), '' if other is None else shown(other, unit), '%.2f' % (own / other) if other else '-')
    return table.status()


if __name__ == '__main__':
    sys.exit(main())
