#!/usr/bin/env python3
"""Refused memory: in each run one allocation of the daemon, between its start and `kill`, fails.

    checks/serve/memory.py [PROGRAM] [--step N] [--jobs N]

First the first allocation is refused, then the second, and so on, until a run ends before that allocation; with --step only every Nth is tried.
Two clients add songs, save a playlist, ask questions, wait in `idle` and play. A run is right if each answer is right, and if at most one of these
happens:
- the start ends with status 1 and `music_daemon: out of memory`;
- a client is disconnected before its greeting, and then connects again;
- a request is refused for lack of memory (`ACK [52@..]`); then all later answers are as if this line, and in a command list the lines after it, had
  not come;
- the line of the start says only how many songs there are;
- an output whose file could not be opened for lack of memory is off, as after any other fault, and has discarded everything;
- the daemon has no memory for its end, and ends with status 1 and that line.
Otherwise the output's file has everything that was played, and the frame counts in the summary balance.
"""
import concurrent.futures
import os
import re
import subprocess
import sys
import tempfile
import time

sys.dont_write_bytecode = True
sys.path.append(os.path.dirname(os.path.dirname(os.path.abspath(__file__))))

from daemon import END, START, Client, Daemon, arguments_of, program_of, status_of, wave
from program import build_library, counts_in

FRAMES = {'a.wav': 1000, 'b.wav': 1500}
REFUSAL = re.compile(r'ACK \[52@(\d+)\] \{\w*\} (out of memory|history full)$')
SUMMARY = re.compile(r'output 0: decoded (\d+) written (\d+) discarded (\d+) left (\d+)$')
IDLE = 'output 0: decoded 0 written 0 discarded 0 left 0\n'
SHORT_LINE = 'music_daemon: %d songs' % len(FRAMES)
RIGHT, START_ENDED, CLOSED, REFUSED, OFF, NO_SUMMARY, FAILED = 'right', 'start ended', 'client closed', 'answer refused', 'output off', 'no summary', 'FAILED'
SHORT = 'short first line'
SORTS = RIGHT, START_ENDED, SHORT, CLOSED, REFUSED, OFF, NO_SUMMARY, FAILED
LONGEST = 10    # how many seconds playing everything may take


class Wrong(Exception):
    pass


class Household:
    """Two clients of a daemon, and what determines the right answers: the songs in the queue, and the list that was saved."""

    def __init__(self, daemon):
        self.daemon, self.queue, self.added, self.saved, self.sticker = daemon, [], 0, None, False
        self.closed = self.refused = 0
        self.first, self.second = self.let_in(), self.let_in()

    def let_in(self):
        """A client that got its greeting. If there was no memory for it, it is disconnected, and connects again."""
        while True:
            try:
                client = Client(self.daemon.port)
                if client.greeting:
                    return client
            except ConnectionResetError:
                # This client connects again, unless the start has ended.
                time.sleep(0.02)
            self.closed += 1

    def ask(self, line, wanted):
        """Whether a line gets the right answer; if not, it was refused for lack of memory."""
        answer = self.first.ask(line)
        if answer == wanted:
            return True
        if len(answer) == 1 and REFUSAL.match(answer[0]):
            self.refused += 1
            return False
        raise Wrong('%s: %s' % (line, answer))

    def add(self, uri):
        """Whether a song was added."""
        number = self.added + 1
        if not self.ask('addid %s' % uri, ['Id: %d' % number, 'OK']):
            return False
        self.queue.append(uri)
        self.added = number
        return True

    def add_list(self, uris):
        """Adds songs in one command list; if one is refused for lack of memory, those before it stay in the queue."""
        self.first.send('\n'.join(['command_list_ok_begin', *('addid %s' % uri for uri in uris), 'command_list_end']))
        answer, wanted = self.first.answer(), []
        for place, uri in enumerate(uris):
            if answer[:-1] == wanted and REFUSAL.match(answer[-1]) and REFUSAL.match(answer[-1]).group(1) == str(place):
                self.refused += 1
                return
            self.queue.append(uri)
            self.added += 1
            wanted += ['Id: %d' % self.added, 'list_OK']
        if answer != wanted + ['OK']:
            raise Wrong('a list: %s' % answer)

    def status(self):
        """The fields of `status`, by their keys; asks again if it is refused for lack of memory."""
        while True:
            answer = self.first.ask('status')
            if answer[-1] == 'OK':
                return dict(line.split(': ', 1) for line in answer[:-1])
            if len(answer) > 1 or not REFUSAL.match(answer[0]):
                raise Wrong('status: %s' % answer)
            self.refused += 1

    def look(self):
        status = self.status()
        if (status['playlistlength'], status['playlist']) != (str(len(self.queue)), str(self.changes + 1)):
            raise Wrong('status: %s at %d songs and %d changes' % (status, len(self.queue), self.changes))

    def edit(self):
        """Adds songs, saves them as a list, and asks about them."""
        self.add('a.wav')
        self.add('b.wav')
        self.changes = len(self.queue)
        self.look()
        if self.ask('save x', ['OK']):
            self.saved = list(self.queue)
        lines = ['ACK [50@0] {listplaylist} no such playlist'] if self.saved is None else ['file: ' + uri for uri in self.saved] + ['OK']
        self.ask('listplaylist x', lines)
        self.sticker = self.ask('sticker set song a.wav r 5', ['OK'])
        self.ask('sticker get song a.wav r', ['sticker: r=5', 'OK'] if self.sticker else ['ACK [50@0] {sticker} no such sticker'])
        self.ask('find "(Title == \'none\')"', ['OK'])
        self.ask('count "(Title == \'none\')"', ['songs: 0', 'playtime: 0', 'OK'])
        before = len(self.queue)
        self.add_list(['a.wav', 'b.wav'])
        self.changes += len(self.queue) - before
        self.look()

    def wait(self):
        """Lets the second client wait in `idle`, and checks that it gets a notice of a change by the first."""
        self.second.send('idle playlist')
        # When a line that was sent later has been answered, the daemon has read the `idle`.
        self.status()
        if not self.add('a.wav'):
            self.second.send('noidle')
            if self.second.answer() not in (['OK'], ['changed: playlist', 'OK']):
                raise Wrong('noidle')
            return
        self.changes += 1
        answer = self.second.answer()
        if len(answer) == 1 and REFUSAL.match(answer[0]):
            self.refused += 1
        elif answer != ['changed: playlist', 'OK']:
            raise Wrong('idle: %s' % answer)

    def frames(self):
        return sum(FRAMES[uri] for uri in self.queue)

    def is_off(self):
        answer = self.first.ask('outputs')
        if len(answer) == 1 and REFUSAL.match(answer[0]):
            self.refused += 1
        return 'outputenabled: 0' in answer

    def play(self, path):
        """Plays all songs, and waits until they have been written, unless the output is off."""
        while not self.ask('play 0', ['OK']):
            pass
        end = time.monotonic() + LONGEST
        while self.status()['state'] != 'stop' or not (self.is_off() or os.path.exists(path) and os.path.getsize(path) == 4 * self.frames()):
            if time.monotonic() > end:
                raise Wrong('it is still playing')
            time.sleep(0.01)

    def kill(self):
        while True:
            self.first.send('kill')
            answer = self.first.answer()
            if answer == ['']:
                return
            if not REFUSAL.match(answer[0]):
                raise Wrong('kill: %s' % answer)
            self.refused += 1


def listens(daemon):
    """Whether the daemon listens; if it does not, its start has ended for lack of memory."""
    end = time.monotonic() + START
    while time.monotonic() < end:
        if daemon.process.poll() is not None:
            return False
        try:
            Client(daemon.port, greeted=False).close()
            return True
        except OSError:
            time.sleep(0.005)
    raise Wrong('it does not listen')


def met(daemon):
    """The daemon's two clients; None if its start has ended, which may happen even after it has begun to listen."""
    try:
        return Household(daemon) if listens(daemon) else None
    except ConnectionRefusedError:
        return None


def ended(daemon, played, path):
    """How a daemon ended after `kill`: it wrote everything, with the usual line of its start or without memory for it; or its output could not be
    opened, and it discarded everything; or it had no memory for its end."""
    status = daemon.process.wait(END)
    if (status, daemon.output(), daemon.unusual()) == (1, '', 'music_daemon: out of memory'):
        return NO_SUMMARY
    summary = SUMMARY.match(daemon.output().strip())
    is_short = daemon.unusual() == SHORT_LINE and ': version ' not in daemon.errors()
    if status != 0 or not summary or daemon.unusual() and not is_short:
        raise Wrong('it ended with status %d, %r, %r' % (status, daemon.output(), daemon.errors()))
    decoded, written, discarded, left = map(int, summary.groups())
    if decoded != written + discarded + left:
        raise Wrong('the summary: %s' % summary.group())
    size = os.path.getsize(path) if os.path.exists(path) else None
    if (decoded, written, size) == (played, played, 4 * played):
        return SHORT if is_short else RIGHT
    if is_short or size is not None or (written, left) != (0, 0):
        raise Wrong('%d frames were played, but the file has %s bytes; %s' % (played, size, summary.group()))
    return OFF


def run(program, library, music, number):
    """Makes one run: its sort, what is wrong, and how many allocations it made."""
    with tempfile.TemporaryDirectory() as folder:
        path, report = os.path.join(folder, 'out.raw'), os.path.join(folder, 'report')
        environment = dict(os.environ, LD_PRELOAD=library, FAULTY_REPORT=report, FAULTY_ALLOCATION=str(number))
        daemon = Daemon(program, folder, music, [path], shelf=os.path.join(folder, 'shelf.db'), rate=8000, wait=False, environment=environment)
        try:
            household = met(daemon)
            if not household:
                status, errors, told = daemon.process.wait(END), daemon.unusual(), daemon.output()
                if (status, errors) != (1, 'music_daemon: out of memory') or told not in ('', IDLE):
                    raise Wrong('the start ended with status %d, %r, %r' % (status, told, errors))
                return START_ENDED, '', counts_in(report)['allocations']
            household.edit()
            household.wait()
            household.play(path)
            household.kill()
            end = ended(daemon, household.frames(), path)
            if household.refused + household.closed + (end != RIGHT) > 1:
                raise Wrong('%d answers and %d clients were refused' % (household.refused, household.closed))
            sort = REFUSED if household.refused else CLOSED if household.closed else end
            return sort, '', counts_in(report)['allocations']
        except (Wrong, OSError, KeyError, subprocess.TimeoutExpired) as fault:
            daemon.kill()
            return FAILED, 'allocation %d refused: %s' % (number, str(fault) or repr(fault)), number


def main():
    parser = arguments_of('Refuses one allocation of the daemon in each run.')
    parser.add_argument('--step', type=int, default=1, metavar='N', help='refuse only every Nth allocation (default: 1)')
    parser.add_argument('--jobs', type=int, default=4, help='how many runs at a time (default: 4)')
    given = parser.parse_args()
    program, sorts, failures, tried = program_of(given.program), dict.fromkeys(SORTS, 0), [], 0
    with tempfile.TemporaryDirectory() as folder, concurrent.futures.ThreadPoolExecutor(given.jobs) as pool:
        library, music = build_library(folder), os.path.join(folder, 'music')
        os.mkdir(music)
        for name, frames in FRAMES.items():
            with open(os.path.join(music, name), 'wb') as file:
                file.write(wave([(1, -1)] * frames, rate=8000))
        is_over = False
        while not is_over:
            numbers = [tried + 1 + given.step * place for place in range(8 * given.jobs)]
            for number, (sort, why, count) in zip(numbers, pool.map(lambda number: run(program, library, music, number), numbers)):
                if count < number:
                    is_over = True
                sorts[sort] += 1
                failures += [why] if sort == FAILED else []
            tried = numbers[-1] + given.step - 1
            is_over = is_over or len(failures) > 20
    print('In each run one allocation of the daemon is refused, between its start and `kill`: %d runs' % sum(sorts.values()))
    for sort in SORTS:
        print('  %-16s %6d' % (sort, sorts[sort]))
    for why in failures:
        print('    ' + why)
    return status_of(len(failures))


if __name__ == '__main__':
    sys.exit(main())
