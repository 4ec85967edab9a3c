#!/usr/bin/env python3
"""Checks outputs with `patience` (a timeout): the daemon waits that long, and no longer, for a reader that stalls; and it never waits for one when it
is shut down.

    checks/serve/patience.py [PROGRAM]

There are: three outputs with patience, of which one's reader stalls for a minute (measured are the gaps in the sound of the others, the answers
meanwhile, which outputs are switched off and on again, and the frame counts at the end); a FIFO that nobody reads; a reader that leaves and comes
back; an output that a user switches off or on while its reader stalls; a player that is stopped meanwhile; an output that was moved to another
partition; `kill`, which must end the daemon within a second, and after which a reader that keeps the pace must have got everything; and the saved
state, in which an output that was switched off for its reader is on.
"""
import os
import re
import signal
import subprocess
import sys
import time

sys.dont_write_bytecode = True

from daemon import Client, Daemon, Pacer, Process, Table, check_each, free_port, program_of

RATE = 44100
PATIENCE = 2        # seconds
LATEST = 1.5        # how many seconds after its patience an output may still be on, and after its reader's return still off
GAP = 0.5           # how many seconds longer than the patience the other outputs may be silent
STEADY = 0.5        # how many seconds an output may be silent that nothing holds up
SLOWEST = 0.5       # how many seconds an answer may take
ENDS = 1.0          # how many seconds a daemon may take to end
BOOKS = re.compile(r'output (\d+): decoded (\d+) written (\d+) discarded (\d+) left (\d+)')


class Reader(Pacer):
    """A reader at the pace of a sound card that records when each piece came, and that can be made to stall."""

    CODE = 'import sys, time\nfile = open(sys.argv[1], "rb", 0)\nrate = int(sys.argv[2])\ntold = open(sys.argv[1] + ".times", "a", 1)\n' \
        'start, done = time.monotonic(), 0\nwhile True:\n    piece = file.read(4096)\n    if not piece:\n        break\n' \
        '    now = time.monotonic()\n    if now - start - done / (4 * rate) > 0.2:\n        start, done = now, 0\n' \
        '    done += len(piece)\n    print(now, len(piece), file=told)\n    time.sleep(max(0, start + done / (4 * rate) - time.monotonic()))\n'

    def __init__(self, path, rate=RATE):
        if os.path.exists(path):
            self.path = path
            self.process = subprocess.Popen([sys.executable, '-c', self.CODE, path, str(rate)])
        else:
            super().__init__(path, rate)

    def stands(self):
        self.process.send_signal(signal.SIGSTOP)

    def goes_on(self):
        self.process.send_signal(signal.SIGCONT)

    def pieces(self):
        """When each piece came, and how many bytes it has."""
        with open(self.path + '.times') as file:
            return [(float(line.split()[0]), int(line.split()[1])) for line in file if line.endswith('\n')]

    def longest_gap(self, start, end):
        moments = [start] + [moment for moment, _ in self.pieces() if start < moment < end] + [end]
        return max(later - earlier for earlier, later in zip(moments, moments[1:]))


class Patient(Daemon):
    """A daemon with outputs that have patience, or none if it is None."""

    def __init__(self, program, folder, music, outputs, more='', wait=True, rate=RATE):
        self.settings = os.path.join(folder, 'settings.toml')
        port = free_port()
        lines = ['music = "%s"' % music, 'listen = "127.0.0.1:%d"' % port, 'rate = %d' % rate, 'kill = true', more]
        for number, (path, patience) in enumerate(outputs):
            lines += ['[[output]]', 'name = "out%d"' % number, 'path = "%s"' % path]
            lines += ['patience = %s' % patience] * (patience is not None)
        with open(self.settings, 'w') as file:
            file.write('\n'.join(lines) + '\n')
        Process.__init__(self, [program, 'serve', '--config', self.settings], port, folder, wait)


def enabled(client):
    return ''.join(line[15:] for line in client.must('outputs') if line.startswith('outputenabled: '))


def becomes(asked, wanted, seconds):
    """After how many seconds a value is the expected one; None if it is not in time."""
    start = time.monotonic()
    while time.monotonic() < start + seconds:
        if asked() == wanted:
            return time.monotonic() - start
        time.sleep(0.02)
    return None


def shown(seconds):
    return 'never' if seconds is None else '%.2f s' % seconds


def play(client, *lines):
    for line in ('add ""', 'repeat 1', *lines, 'play'):
        client.must(line)


def end(table, daemon, readers=()):
    """Checks that the daemon ends within a second, and that the frame counts of each output balance."""
    client = daemon.client()
    start = time.monotonic()
    client.send('kill')
    try:
        status = daemon.process.wait(10)
    except subprocess.TimeoutExpired:
        daemon.kill()
        status = None
    took = time.monotonic() - start
    table.row('`kill`', 'status %s after %.2f s' % (status, took), right=status == 0 and took < ENDS)
    books = [[int(word) for word in BOOKS.match(line).groups()] for line in daemon.output().splitlines() if BOOKS.match(line)]
    right = bool(books) and all(decoded == written + discarded + left for _, decoded, written, discarded, left in books)
    table.row('frame counts', '; '.join('%d = %d + %d + %d' % tuple(book[1:]) for book in books), right=right)
    for reader in readers:
        reader.goes_on()
        reader.kill()
    return books


def slowest_answer(client, seconds):
    slowest, until = 0.0, time.monotonic() + seconds
    while time.monotonic() < until:
        start = time.monotonic()
        client.must('status')
        slowest = max(slowest, time.monotonic() - start)
        time.sleep(0.01)
    return slowest


def check_minute(table, program, folder, music):
    """One of three readers stalls for a minute. The ring buffers last longer than the patience, so the other outputs never fall silent."""
    stand(table, program, folder, music, 'ring = 65536', 1, 60, STEADY)


def check_stands(table, program, folder, music):
    """With ring buffers that do not last as long, the others fall silent for as long as the patience, and no longer."""
    stand(table, program, folder, music, '', PATIENCE, 5, PATIENCE + GAP)


def stand(table, program, folder, music, more, patience, seconds, most):
    readers = [Reader(os.path.join(folder, 'room%d' % number)) for number in range(3)]
    daemon = Patient(program, folder, music, [(reader.path, patience) for reader in readers], more)
    client, waiter = daemon.client(), daemon.client()
    play(client)
    time.sleep(3)
    waiter.must('status')
    waiter.send('idle output')
    stopped = time.monotonic()
    readers[1].stands()
    off = becomes(lambda: enabled(client), '101', patience + 1 + LATEST)
    table.row('%s patience %d: it is switched off after' % (more, patience), shown(off), right=off is not None and off >= patience - 0.1)
    table.row('a client in `idle` gets', waiter.answer()[0], right=off is not None)
    slowest = slowest_answer(client, stopped + seconds - time.monotonic())
    now = time.monotonic()
    table.row('slowest answer while it stalls', '%.0f ms, for %.0f s' % (1000 * slowest, now - stopped), right=slowest < SLOWEST)
    for number in (0, 2):
        gap, later = readers[number].longest_gap(stopped, now), readers[number].longest_gap(now - 2, now)
        table.row('output %d: longest gap' % number, '%.2f s; after the other is off, %.2f s' % (gap, later), right=gap < most and later < STEADY)
    readers[1].goes_on()
    back = becomes(lambda: enabled(client), '111', LATEST)
    table.row('its reader goes on: it is switched on after', shown(back), right=back is not None)
    time.sleep(2)
    now = time.monotonic()
    for number in range(3):
        gap = readers[number].longest_gap(now - 1, now)
        table.row('output %d: longest gap' % number, '%.2f s' % gap, right=gap < STEADY)
    told = [line.partition(': ')[2] for line in daemon.errors().splitlines() if 'switched' in line]
    wanted = ['output 1: switched off, since %s takes nothing' % readers[1].path, 'output 1: switched on again (%s)' % readers[1].path]
    table.row('on standard error', '; '.join(told).replace(folder, '..'), right=told == wanted)
    books = end(table, daemon, readers)
    discarded = [book[3] for book in books]
    table.row('frames that were discarded', discarded, right=len(books) == 3 and discarded[0] == discarded[2] == 0 < discarded[1])


def check_short(table, program, folder, music):
    """A reader that stalls for less than the patience: all outputs wait, nothing is lost, and none is switched off."""
    readers = [Reader(os.path.join(folder, 'short%d' % number)) for number in range(2)]
    daemon = Patient(program, folder, music, [(reader.path, 30) for reader in readers])
    client = daemon.client()
    play(client)
    time.sleep(1)
    readers[1].stands()
    time.sleep(3)
    table.row('within its patience', enabled(client), right=enabled(client) == '11')
    readers[1].goes_on()
    time.sleep(1)
    books = end(table, daemon, readers)
    table.row('frames that were discarded', [book[3] for book in books], right=all(book[3] == 0 for book in books))


def check_unread(table, program, folder, music):
    """A FIFO that nobody reads from the start: the other output plays once the patience is over. Then a reader comes, leaves and comes again."""
    alone, paced = os.path.join(folder, 'alone'), Reader(os.path.join(folder, 'beside'))
    os.mkfifo(alone)
    daemon = Patient(program, folder, music, [(alone, PATIENCE), (paced.path, PATIENCE)])
    client = daemon.client()
    play(client)
    off = becomes(lambda: enabled(client), '01', PATIENCE + 1 + LATEST)
    table.row('a FIFO without a reader: switched off after', shown(off), right=off is not None and off >= PATIENCE - 0.1)
    time.sleep(2)
    gap = paced.longest_gap(time.monotonic() - 1, time.monotonic())
    table.row('the other: longest gap', '%.2f s' % gap, right=gap < STEADY)
    for word in ('a reader comes', 'another comes'):
        reader = Reader(alone)
        back = becomes(lambda: enabled(client), '11', LATEST)
        table.row('%s: switched on after' % word, shown(back), right=back is not None)
        time.sleep(1)
        count = sum(size for _, size in reader.pieces())
        table.row('', '%d bytes, whole frames' % count, right=count > 0 and count % 4 == 0)
        reader.kill()
        off = becomes(lambda: enabled(client), '01', PATIENCE + 1 + LATEST)
        table.row('it leaves: switched off after', shown(off), right=off is not None and off >= PATIENCE - 0.5)
    end(table, daemon, [paced])


def check_by_hand(table, program, folder, music):
    """If a user switches an output on while its reader stalls, its patience begins again. If a user switches it off, it stays off."""
    readers = [Reader(os.path.join(folder, 'hand%d' % number)) for number in range(2)]
    daemon = Patient(program, folder, music, [(reader.path, PATIENCE) for reader in readers])
    client = daemon.client()
    play(client)
    time.sleep(1)
    readers[0].stands()
    becomes(lambda: enabled(client), '01', PATIENCE + 1 + LATEST)
    for turn in range(3):
        client.must('enableoutput 0')
        off = becomes(lambda: enabled(client), '01', PATIENCE + 1 + LATEST)
        table.row('switched on by a user, %d: off after' % (turn + 1), shown(off), right=off is not None and off >= PATIENCE - 0.1)
    readers[0].goes_on()
    back = becomes(lambda: enabled(client), '11', LATEST)
    table.row('its reader goes on: switched on after', shown(back), right=back is not None)
    refused = client.ask('enableoutput 0')[-1]
    table.row('it has not failed', refused, right=refused == 'OK')
    client.must('disableoutput 0')
    time.sleep(0.5)
    readers[0].stands()
    time.sleep(PATIENCE + 2)
    readers[0].goes_on()
    time.sleep(LATEST)
    table.row('off by a user; its reader stalls and goes on', enabled(client), right=enabled(client) == '01')
    end(table, daemon, readers)


def check_switches(table, program, folder, music):
    """An output was switched off for its reader, and then a user switches it on and off again: it stays off."""
    reader = Reader(os.path.join(folder, 'switches'))
    daemon = Patient(program, folder, music, [(reader.path, PATIENCE)])
    client = daemon.client()
    play(client)
    time.sleep(1)
    reader.stands()
    becomes(lambda: enabled(client), '0', PATIENCE + 1 + LATEST)
    client.must('enableoutput 0')
    time.sleep(0.5)
    client.must('disableoutput 0')
    time.sleep(0.5)
    reader.goes_on()
    time.sleep(LATEST)
    table.row('on and off by a user while its reader stalls', enabled(client), right=enabled(client) == '0')
    client.must('enableoutput 0')
    time.sleep(1)
    reader.stands()
    becomes(lambda: enabled(client), '0', PATIENCE + 1 + LATEST)
    for _ in range(500):
        client.must('enableoutput 0')
        client.must('disableoutput 0')
    reader.goes_on()
    time.sleep(LATEST)
    refused = client.ask('enableoutput 0')[-1]
    table.row('after 500 switches it has not failed', refused, right=refused == 'OK')
    end(table, daemon, [reader])


def check_stopped(table, program, folder, music):
    """While nothing is played, no output is switched off, however long its reader stalls."""
    readers = [Reader(os.path.join(folder, 'stopped%d' % number)) for number in range(2)]
    daemon = Patient(program, folder, music, [(reader.path, PATIENCE) for reader in readers])
    client = daemon.client()
    for word, again in (('stop', 'play'), ('pause 1', 'pause 0')):
        play(client) if word == 'stop' else None
        time.sleep(1)
        readers[0].stands()
        time.sleep(1)
        client.must(word)
        used = daemon.seconds()
        off = becomes(lambda: enabled(client), '01', 2 * PATIENCE + 1)
        table.row('`%s` while it stalls: off after' % word, '%s, %.2f s of processor time' % (shown(off), daemon.seconds() - used), right=off is None)
        readers[0].goes_on()
        time.sleep(1)
        client.must(again)
        off = becomes(lambda: enabled(client), '01', PATIENCE + 1)
        table.row('its reader goes on, `%s`: off after' % again, shown(off), right=off is None)
    end(table, daemon, readers)


def check_moved(table, program, folder, music):
    """An output in another partition is switched off and on there."""
    readers = [Reader(os.path.join(folder, 'moved%d' % number)) for number in range(2)]
    daemon = Patient(program, folder, music, [(reader.path, PATIENCE) for reader in readers])
    kitchen, upstairs = daemon.client(), daemon.client()
    upstairs.must('newpartition upstairs')
    upstairs.must('partition upstairs')
    upstairs.must('moveoutput out1')
    play(kitchen)
    play(upstairs)
    time.sleep(1)
    readers[1].stands()
    off = becomes(lambda: enabled(upstairs), '0', PATIENCE + 1 + LATEST)
    table.row('in another partition: off after', shown(off), right=off is not None)
    readers[1].goes_on()
    back = becomes(lambda: enabled(upstairs), '1', LATEST)
    table.row('on after', shown(back), right=back is not None)
    end(table, daemon, readers)


def check_end(table, program, folder, music):
    """`kill` while the reader stalls, before and after its output is switched off; and the daemon says how much the reader did not take."""
    for name, seconds in (('within its patience', 0.5), ('once it is off', PATIENCE + 2)):
        path = os.path.join(folder, 'end %.1f' % seconds)
        reader = Reader(path)
        daemon = Patient(program, folder, music, [(path, PATIENCE)])
        client = daemon.client()
        play(client)
        time.sleep(1)
        reader.stands()
        time.sleep(seconds + 1)
        end(table, daemon, [reader])
        told = [line for line in daemon.errors().splitlines() if 'did not take' in line]
        table.row('the end %s' % name, ' '.join(told)[-60:], right=len(told) == 1)


def check_delivered(table, program, folder, music):
    """At the end a reader that keeps the pace gets all that counts as written: the daemon waits for it up to half a second."""
    reader = Reader(os.path.join(folder, 'delivered'))
    daemon = Patient(program, folder, music, [(reader.path, PATIENCE)])
    play(daemon.client())
    time.sleep(2)
    books = end(table, daemon)
    reader.process.wait(10)
    got, written = sum(count for _, count in reader.pieces()), 4 * books[0][2]
    told = [line for line in daemon.errors().splitlines() if 'did not take' in line]
    table.row('bytes that its reader got', '%d of %d' % (got, written), right=got == written and not told)


def check_without(table, program, folder, music):
    """An output without the key `patience` is waited for without limit, even if another output has the key."""
    readers = [Reader(os.path.join(folder, 'without%d' % number)) for number in range(2)]
    daemon = Patient(program, folder, music, [(readers[0].path, None), (readers[1].path, PATIENCE)])
    client = daemon.client()
    play(client)
    time.sleep(1)
    readers[0].stands()
    time.sleep(PATIENCE + 2)
    before = client.value('status', 'elapsed')
    time.sleep(1)
    after = client.value('status', 'elapsed')
    table.row('without the key', 'enabled %s, elapsed %s, a second later %s' % (enabled(client), before, after), right=enabled(client) == '11' and before == after)
    readers[0].goes_on()
    end(table, daemon, readers)


def check_kept(table, program, folder, music):
    """In the saved state an output that was switched off for its reader is on: after `kill`, and after `kill -9` while it is off."""
    for word in ('kill', 'kill -9'):
        kept, reader = os.path.join(folder, 'state of ' + word), Reader(os.path.join(folder, 'kept by ' + word))
        daemon = Patient(program, folder, music, [(reader.path, PATIENCE)], 'state = "%s"' % kept)
        client = daemon.client()
        play(client)
        time.sleep(1)
        reader.stands()
        off = becomes(lambda: enabled(client), '0', PATIENCE + 1 + LATEST)
        time.sleep(3)
        client.must('setvol 50')
        time.sleep(3)
        if word == 'kill':
            end(table, daemon, [reader])
        else:
            daemon.kill()
            reader.kill()
        with open(kept) as file:
            lines = [line.strip() for line in file if 'output' in line or 'setvol' in line]
        table.row('the state after `%s`' % word, ' '.join(lines), right=off is not None and lines == ['setvol 50', 'enableoutput 0'])


def check_clients(table, program, folder, music):
    """With patience the daemon serves 63 clients, and with a saved state as well 62."""
    for more, wanted in (('', 63), ('state = "%s"' % os.path.join(folder, 'state of clients'), 62)):
        daemon = Patient(program, folder, music, [('/dev/null', PATIENCE)], more)
        time.sleep(1)
        clients = []
        for _ in range(64):
            client = Client(daemon.port, greeted=False)
            client.socket.settimeout(2)
            try:
                if client.line().startswith('OK MPD'):
                    clients.append(client)
            except OSError:
                pass
        table.row('clients that are served%s' % (' with a saved state' if more else ''), len(clients), right=len(clients) == wanted)
        for client in clients:
            client.close()
        time.sleep(0.5)
        end(table, daemon)


def main():
    program, table = program_of(sys.argv[1] if len(sys.argv) > 1 else None), Table('Patience', 46, 80)
    checks = [
        check_minute, check_stands, check_short, check_unread, check_by_hand, check_switches, check_stopped, check_moved, check_end, check_delivered,
        check_without, check_kept, check_clients]
    return check_each(program, table, checks, RATE)


if __name__ == '__main__':
    sys.exit(main())
