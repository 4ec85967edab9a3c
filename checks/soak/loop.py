"""Runs many clients in one loop. Each client is a generator: it yields a request, and is sent the lines of the answer; or it yields for how many
seconds it pauses."""
import heapq
import itertools
import os
import selectors
import socket
import sys
import time

from answers import Fault, check_answer_line

CLOSE, CONNECT = 'close the connection', 'connect'
SUBSYSTEMS = {'database', 'update', 'stored_playlist', 'playlist', 'player', 'mixer', 'output', 'options', 'partition', 'sticker', 'subscription', 'message'}
CONNECT_WITHIN = 60 # how many seconds a connect may take
MOST_FAULTS = 20    # how many faults are printed in the table
GREETING = 'OK MPD '


class Waits:
    """Waits in `idle` for at most so many seconds, and then sends `noidle`."""

    def __init__(self, names, seconds):
        self.request, self.seconds = ' '.join(['idle', *names]), seconds


class Asker:
    """A client of the loop."""

    def __init__(self, name, story):
        self.name, self.story = name, story
        self.socket, self.held, self.lines = None, b'', []
        self.since, self.rests, self.is_greeted, self.lives = None, 0, False, 0


class Loop:
    """Runs the clients, and other work that sends no requests, until the end."""

    def __init__(self, port, latest):
        self.latest = latest
        self.port, self.ready, self.timers, self.order = port, selectors.DefaultSelector(), [], itertools.count()
        self.askers, self.faults, self.count, self.refused, self.notices, self.slowest = [], [], 0, 0, 0, 0.0
        self.turned_away = 0
        self.is_over = False

    def at(self, seconds, work, *words):
        heapq.heappush(self.timers, (time.monotonic() + seconds, next(self.order), work, words))

    def again(self, seconds, work):
        """Does some work now, and again every so many seconds."""
        work()
        self.at(seconds, self.again, seconds, work)

    def begin(self, name, story):
        """Begins a client with its story, which is a function that makes the generator."""
        asker = Asker(name, story)
        self.askers.append(asker)
        self.connect(asker)
        self.restart(asker)

    def connect(self, asker):
        asker.socket = socket.create_connection(('127.0.0.1', self.port), CONNECT_WITHIN)
        asker.socket.setsockopt(socket.IPPROTO_TCP, socket.TCP_NODELAY, 1)
        asker.held, asker.lines, asker.is_greeted = b'', [], False
        self.ready.register(asker.socket, selectors.EVENT_READ, asker)

    def disconnect(self, asker):
        self.ready.unregister(asker.socket)
        asker.socket.close()
        asker.socket = asker.since = None

    def restart(self, asker):
        asker.run = asker.story()
        self.go_on(asker, None)

    def go_on(self, asker, lines):
        """Gives a client its answer, and does what it asks for next."""
        if self.is_over:
            return
        try:
            wish = asker.run.send(lines)
        except Fault as fault:
            return self.wrong(asker, fault)
        if isinstance(wish, (int, float)):
            return self.at(wish, self.wake, asker, asker.lives)
        if wish in (CLOSE, CONNECT):
            self.disconnect(asker) if wish == CLOSE else self.connect(asker)
            return self.at(0.01, self.wake, asker, asker.lives)
        self.send(asker, wish)

    def wake(self, asker, lives):
        """Lets a client go on after a pause, unless it was started again meanwhile."""
        if asker.lives == lives:
            self.go_on(asker, None)

    def send(self, asker, wish):
        asker.rests += 1
        asker.since, asker.asked = time.monotonic(), wish.request if isinstance(wish, Waits) else wish
        if isinstance(wish, Waits):
            self.at(wish.seconds, self.no_more, asker, asker.rests)
        asker.socket.sendall(asker.asked.encode() + b'\n')

    def no_more(self, asker, number):
        """Ends the wait of a client that still waits in `idle`. If the daemon has just answered it, the daemon ignores the `noidle`."""
        if asker.rests == number and asker.since is not None and not self.is_over:
            asker.since = time.monotonic()
            asker.asked = 'noidle'
            asker.socket.sendall(b'noidle\n')

    def wrong(self, asker, fault):
        """Prints a fault, and starts the client again."""
        self.faults.append('%s: %s' % (asker.name, fault))
        print('%s: %s' % (time.strftime('%H:%M:%S'), self.faults[-1]), file=sys.stderr, flush=True)
        if asker.socket:
            self.disconnect(asker)
        asker.lives += 1
        self.at(1, self.anew, asker)

    def anew(self, asker):
        if not self.is_over:
            self.connect(asker)
            self.restart(asker)

    def read(self, asker):
        try:
            piece = asker.socket.recv(1 << 18)
        except OSError:
            piece = b''
        if not piece:
            return self.closed(asker)
        asker.held += piece
        while b'\n' in asker.held and asker.socket:
            line, _, asker.held = asker.held.partition(b'\n')
            self.take(asker, line.decode(errors='backslashreplace'))

    def closed(self, asker):
        """If a client connects before the daemon has noticed that another one left, it is disconnected without a greeting, and tries again."""
        if not asker.is_greeted:
            self.turned_away += 1
            self.disconnect(asker)
            asker.lives += 1
            return self.at(1, self.anew, asker)
        self.wrong(asker, Fault('closed', 'after %s' % asker.asked.partition('\n')[0]))

    def take(self, asker, line):
        if not asker.is_greeted:
            asker.is_greeted = line.startswith(GREETING)
            if not asker.is_greeted:
                self.wrong(asker, Fault('no greeting', repr(line)))
            return
        try:
            check_answer_line(line)
            if asker.since is None:
                raise Fault('a line without a request', repr(line))
            if line.startswith('changed: ') and line[9:] not in SUBSYSTEMS:
                raise Fault('an unknown subsystem', repr(line))
        except Fault as fault:
            return self.wrong(asker, fault)
        asker.lines.append(line)
        if line == 'OK' or line.startswith('ACK '):
            self.answered(asker)

    def answered(self, asker):
        self.count += 1
        self.refused += asker.lines[-1] != 'OK'
        self.notices += sum(line.startswith('changed: ') for line in asker.lines)
        if not asker.asked.startswith('idle'):
            self.slowest = max(self.slowest, time.monotonic() - asker.since)
        lines, asker.lines, asker.since = asker.lines, [], None
        self.go_on(asker, lines)

    def look_for_late(self):
        """Finds the clients that were not answered in time; a client in `idle` may wait for any time."""
        for asker in self.askers:
            if asker.since is not None and not asker.asked.startswith('idle') and time.monotonic() - asker.since > self.latest:
                self.wrong(asker, Fault('no answer', 'to %s within %g s' % (asker.asked.partition('\n')[0], self.latest)))

    def run(self, seconds, is_alive):
        end = time.monotonic() + seconds
        self.again(5, self.look_for_late)
        while time.monotonic() < end and is_alive():
            while self.timers and self.timers[0][0] <= time.monotonic():
                _, _, work, words = heapq.heappop(self.timers)
                work(*words)
            wait = self.timers[0][0] - time.monotonic() if self.timers else 1
            for key, _ in self.ready.select(max(0.001, min(wait, 1))):
                if key.data.socket is key.fileobj:
                    self.read(key.data)
        self.is_over = True

    def close(self):
        for asker in self.askers:
            if asker.socket:
                self.disconnect(asker)


class Readers:
    """The readers of the FIFOs of all outputs, which read as fast as sound cards play; each can stall for some seconds, or leave and come back."""

    def __init__(self, folder, count, rate):
        self.paths = [os.path.join(folder, 'room%d' % number) for number in range(count)]
        for path in self.paths:
            os.mkfifo(path)
        self.rate, self.files = 4 * rate, [self.opened(path) for path in self.paths]
        self.taken, self.still, self.last = [0] * count, [0.0] * count, time.monotonic()

    @staticmethod
    def opened(path):
        return os.open(path, os.O_RDONLY | os.O_NONBLOCK)

    def stand(self, number, seconds):
        self.still[number] = time.monotonic() + seconds

    def go(self, number, seconds):
        """Lets a reader close its FIFO, and open it again when it goes on reading."""
        if self.files[number] is not None:
            os.close(self.files[number])
        self.files[number] = None
        self.stand(number, seconds)

    def take(self):
        """Reads as much as a sound card would have played since the last time."""
        now = time.monotonic()
        size, self.last = int((now - self.last) * self.rate), now
        for number, path in enumerate(self.paths):
            if now < self.still[number]:
                continue
            if self.files[number] is None:
                self.files[number] = self.opened(path)
            try:
                self.taken[number] += len(os.read(self.files[number], size))
            except BlockingIOError:
                pass

    def close(self):
        for file in self.files:
            if file is not None:
                os.close(file)
