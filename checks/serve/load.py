#!/usr/bin/env python3
"""Puts load on the daemon: 64 clients and 8 outputs, and clients that misbehave while others send requests.

    checks/serve/load.py [PROGRAM] [--seconds N] [--connections N]

For N seconds (60), 64 clients ping, edit and wait in `idle`. Then there are: a client that never reads; one that sends `close` and does not read;
one that sends 10 MB without a newline; one that sends random bytes; and so many connections that are opened and closed (10,000). It prints memory,
answers a second, and times. The exit status is 1 if a client gets no answer or a wrong one, if an answer takes a second or longer, or if the
daemon afterwards has more open files, or much more memory, than before.
"""
import os
import random
import selectors
import socket
import sys
import tempfile
import threading
import time

sys.dont_write_bytecode = True

from daemon import Client, Daemon, Pacer, Table, given_to, program_of, put_songs

SLOWEST = 1.0       # how many seconds an answer may take
GROWTH = 80         # by how many megabytes the daemon may grow, for unsent answers and the history's window
SENT = 10_000_000   # how many bytes are sent without a newline
LAST_READ = 10      # how many seconds a client that is being disconnected gets to read its last answers
# The refusals that an edit may get: a position that the queue no longer has, a song that does not exist, and a full queue (16,384 entries).
REFUSED = (b'ACK [2@0]', b'ACK [50@0]', b'ACK [51@0] {add} playlist is full', b'ACK [51@0] {addid} playlist is full')


class Asker:
    """A client of the event loop: it sends a request when the last one has been answered, and records the times."""

    def __init__(self, port, number, kind):
        self.number, self.kind, self.draw = number, kind, random.Random(number)
        self.client = Client(port)
        self.client.socket.setblocking(False)
        self.held, self.count, self.slowest, self.wrong, self.notices, self.full = b'', 0, 0.0, 0, 0, 0

    def request(self):
        if self.kind == 'ping':
            return 'ping'
        if self.kind == 'wait':
            return 'idle'
        return self.draw.choice([
            'addid "album 00/0001.wav"', 'add "album 01/0012.wav"', 'delete 0', 'move 0 1', 'swap 0 1', 'setvol %d' % self.draw.randint(0, 100),
            'playlistinfo 0:10', 'status', 'currentsong', 'shuffle 0:20', 'prio 3 0', 'plchangesposid 1 0:10', 'find artist "Artist 3" window 0:5',
        ])

    def next(self):
        self.since = time.monotonic()
        self.client.send(self.request())

    def read(self):
        """Reads what has arrived; returns False if the daemon has closed the connection."""
        piece = self.client.socket.recv(1 << 16)
        if not piece:
            return False
        self.held += piece
        while b'\n' in self.held:
            line, _, self.held = self.held.partition(b'\n')
            self.notices += line.startswith(b'changed: ')
            if line == b'OK' or line.startswith(b'ACK '):
                self.answered(line)
        return True

    def answered(self, line):
        self.count += 1
        if self.kind != 'wait':
            self.slowest = max(self.slowest, time.monotonic() - self.since)
        self.full += line.startswith(b'ACK [51@0]')
        self.wrong += line != b'OK' and (self.kind != 'edit' or not line.startswith(REFUSED))
        self.next()


def run_askers(askers, seconds):
    """Runs the clients at the same time, and returns how many were disconnected."""
    closed = 0
    with selectors.DefaultSelector() as ready:
        for asker in askers:
            ready.register(asker.client.socket, selectors.EVENT_READ, asker)
            asker.next()
        end = time.monotonic() + seconds
        while time.monotonic() < end:
            for key, _ in ready.select(0.2):
                if not key.data.read():
                    ready.unregister(key.data.client.socket)
                    closed += 1
    return closed


def check_many(table, daemon, seconds):
    """64 clients, one of which only watches, and a 65th one, which must be disconnected without a greeting."""
    before, used = daemon.memory(), daemon.seconds()
    # The client that only watches is connected already.
    kinds = ['ping'] * 24 + ['edit'] * 24 + ['wait'] * 15
    askers = [Asker(daemon.port, number, kind) for number, kind in enumerate(kinds)]
    more = Client(daemon.port, greeted=False)
    greeting = more.line()
    more.close()
    table.row('the 65th client', 'disconnected without a greeting' if greeting == '' else greeting, right=greeting == '')
    closed = run_askers(askers, seconds)
    used, after = daemon.seconds() - used, daemon.memory()
    for kind in ('ping', 'edit', 'wait'):
        of_kind = [asker for asker in askers if asker.kind == kind]
        count, slowest = sum(asker.count for asker in of_kind), max(asker.slowest for asker in of_kind)
        wrong, least = sum(asker.wrong for asker in of_kind), min(asker.count for asker in of_kind)
        told = '%.0f answers a second, at least %d for each client' % (count / seconds, least)
        told += ', slowest %.1f ms' % (1000 * slowest) if kind != 'wait' else ', %d changes reported' % sum(asker.notices for asker in of_kind)
        full = sum(asker.full for asker in of_kind)
        told += ', %d edits found the queue full' % full if full else ''
        table.row('%d clients: %s' % (len(of_kind), kind), told + (', %d WRONG' % wrong if wrong else ''),
                  right=not wrong and least > 0 and slowest < SLOWEST)
    table.row('processor time', '%.0f %% of one' % (100 * used / seconds))
    table.row('memory', '%.1f MB, then %.1f MB' % (before, after), right=after - before < GROWTH)
    table.row('clients that were disconnected', closed, right=closed == 0)
    for asker in askers:
        asker.client.close()
    # The daemon notices in its next round that they are gone.
    time.sleep(0.5)


class Neighbour(threading.Thread):
    """A client that pings all the time, which shows how much another client disturbs it."""

    def __init__(self, port):
        super().__init__()
        self.client, self.slowest, self.count, self.ends = Client(port), 0.0, 0, False

    def run(self):
        while not self.ends:
            start = time.monotonic()
            if self.client.ask('ping') != ['OK']:
                self.slowest = float('inf')
                return
            self.slowest, self.count = max(self.slowest, time.monotonic() - start), self.count + 1
            time.sleep(0.001)

    def end(self):
        self.ends = True
        self.join()
        self.client.close()
        return 'slowest of %d pings meanwhile %.1f ms' % (self.count, 1000 * self.slowest)


def beside(table, daemon, name, misbehave):
    """Misbehaves while another client pings, which must get its answers in time; and memory must stay bounded."""
    before = daemon.memory()
    neighbour = Neighbour(daemon.port)
    neighbour.start()
    start = time.monotonic()
    try:
        told, right = misbehave(daemon.port)
    finally:
        beside_it = neighbour.end()
    after = daemon.memory()
    table.row(name, '%s, %.1f s; %s; memory %.1f, then %.1f MB' % (told, time.monotonic() - start, beside_it, before, after),
              right=right and neighbour.count > 0 and neighbour.slowest < SLOWEST and after - before < GROWTH)


def never_reads(port):
    """Asks for the whole queue again and again, and reads nothing: when too much is unsent, the daemon must disconnect it, or stop reading."""
    client = Client(port)
    client.socket.settimeout(5)
    count = 0
    try:
        while count < 1_000_000:
            client.socket.sendall(b'playlistinfo\n' * 100)
            count += 100
    except socket.timeout:
        return 'the daemon stopped reading after %d requests' % count, True
    except OSError:
        return 'disconnected after %d requests' % count, True
    finally:
        client.close()
    return 'it was never disconnected', False


def closed_and_never_reads(daemon):
    def misbehave(port):
        """Asks for more than the system's buffers hold, sends `close`, and reads nothing: it may keep its slot for ten seconds, and no longer."""
        before = daemon.files()
        client = Client(port)
        client.socket.sendall(b'playlistinfo 0:1000\n' * 40 + b'close\n')
        time.sleep(LAST_READ / 2)
        held = daemon.files() - before
        time.sleep(LAST_READ)
        freed = daemon.files() == before
        client.close()
        return 'places held: %d after %d s, %s after %d s' % (held, LAST_READ / 2, '0' if freed else 'more', 1.5 * LAST_READ), held == 1 and freed
    return misbehave


def no_newline(port):
    """Sends 10 MB without a newline: it must be disconnected at byte 16,385."""
    client = Client(port)
    client.socket.settimeout(5)
    sent = 0
    try:
        while sent < SENT:
            sent += client.socket.send(b'a' * 65536)
        line = client.line()
        return 'disconnected without an answer' if line == '' else 'answered ' + line, line == ''
    except OSError as fault:
        return 'disconnected after it had sent %d bytes (%s)' % (sent, type(fault).__name__), not isinstance(fault, socket.timeout)
    finally:
        client.close()


def random_bytes(port):
    """Sends random bytes, with newlines among them, and a proper line at the end."""
    draw = random.Random(1)
    answers = closed = 0
    for _ in range(20):
        client = Client(port)
        client.socket.settimeout(5)
        try:
            for _ in range(20):
                piece = bytearray(draw.randbytes(4096))
                for place in range(0, 4096, 97):
                    piece[place] = 10
                client.socket.sendall(piece)
            client.send('\nping')
            while client.answer()[-1] != 'OK':
                answers += 1
            answers += 1
        except (OSError, AssertionError):
            closed += 1
        client.close()
    return '1.6 MB on 20 connections, %d answers' % answers, closed == 0


def many_connections(count):
    def connect(port):
        greeted = 0
        for number in range(count):
            client = Client(port, greeted=number % 3 > 0)
            greeted += number % 3 > 0 and client.greeting.startswith('OK MPD')
            if number % 3 == 2:
                client.send('ping')
            client.close()
        wanted = sum(number % 3 > 0 for number in range(count))
        return '%d opened and closed; %d of the %d that waited for a greeting got it' % (count, greeted, wanted), greeted == wanted
    return connect


def check_misbehaviour(table, daemon, connections):
    beside(table, daemon, 'never reads', never_reads)
    beside(table, daemon, 'sends close, never reads', closed_and_never_reads(daemon))
    beside(table, daemon, '10 MB without a newline', no_newline)
    beside(table, daemon, 'random bytes', random_bytes)
    beside(table, daemon, 'connections', many_connections(connections))


def main():
    given = given_to('Puts load on the daemon.', seconds=(60, 'how long the 64 clients send requests'),
                     connections=(10_000, 'how many connections are opened and closed'))
    program = program_of(given.program)
    table = Table('Load, while 8 outputs play', 30, 100)
    with tempfile.TemporaryDirectory() as folder:
        music = os.path.join(folder, 'music')
        put_songs(music, 100, 441_000)
        with Pacer(os.path.join(folder, 'fifo')) as pacer, \
                Daemon(program, folder, music, [pacer.path] + ['/dev/null'] * 7, shelf=os.path.join(folder, 'shelf.db')) as daemon:
            client = daemon.client()
            for line in ['add ""'] * 10 + ['repeat 1', 'play']:
                client.must(line)
            time.sleep(0.5)
            files = daemon.files()
            check_many(table, daemon, given.seconds)
            check_misbehaviour(table, daemon, given.connections)
            time.sleep(1)
            state = client.value('status', 'state')
            table.row('it goes on playing', state, right=state == 'play')
            table.row('open files', '%d, then %d' % (files, daemon.files()), right=daemon.files() == files)
            client.must('stop')
            status, summary = daemon.end()
            table.row('the end', 'status %d, %d outputs settled' % (status, sum('unsettled' not in line for line in summary)),
                      right=status == 0 and len(summary) == 8 and not any('unsettled' in line for line in summary))
    return table.status()


if __name__ == '__main__':
    sys.exit(main())
