#!/usr/bin/env python3
"""A day's work in minutes: a million edits, while ten thousand songs are played into /dev/null, outputs are switched off and on, and scans find
other songs.

    checks/serve/day.py [PROGRAM] [--edits N] [--songs N] [--seconds N]

Four clients edit a queue of some hundreds of entries, with single lines and with command lists; one plays, skips and changes modes; one switches
outputs; one has the folder scanned while songs are added to it and removed; one waits in `idle`. It ends when so many edits have been answered
and so many songs have been played; if that takes longer than so many seconds (600), it fails. It prints the edits, songs, scans and switches;
the slowest answer; the memory at each tenth of the edits, which must not grow in the second half; and the frame counts of both outputs.
"""
import os
import random
import re
import shutil
import sys
import tempfile
import threading
import time

sys.dont_write_bytecode = True

from daemon import Daemon, Table, given_to, program_of, put_songs, uri_of

RATE = 44100
LENGTH = 22050      # how many frames a song has
SONGS = 200
MANY, FEW = 900, 300    # the queue is kept between these lengths
GROWTH = 1.0        # by how many megabytes the memory may grow in the second half
SLOWEST = 1.0       # how many seconds an answer may take
SHARE = 50          # how many lines an editor sends at once
BOOKS = re.compile(r'output (\d+): decoded (\d+) written (\d+) discarded (\d+) left (\d+)')


class Day:
    """What the clients have in common."""

    def __init__(self, daemon):
        self.daemon = daemon
        self.lock = threading.Lock()
        self.edits, self.refused, self.slowest = 0, 0, 0.0
        self.counts = {'switches': 0, 'scans': 0, 'skips': 0, 'notices': 0}
        self.faults = []
        self.is_over = threading.Event()

    def count(self, name):
        with self.lock:
            self.counts[name] += 1

    def answered(self, edits, refused, seconds):
        with self.lock:
            self.edits += edits
            self.refused += refused
            self.slowest = max(self.slowest, seconds)


def edit(draw, length):
    """A random edit of a queue with so many entries; it keeps the length between FEW and MANY."""
    place = lambda: draw.randrange(FEW // 2)
    kind = draw.randrange(100)
    if kind < 30:
        return 'add "%s"' % uri_of(draw.randrange(SONGS)) if length < MANY else 'delete %d' % place()
    if kind < 45:
        return 'addid "%s" %d' % (uri_of(draw.randrange(SONGS)), place()) if length < MANY else 'delete %d' % place()
    if kind < 62:
        return 'delete %d' % place() if length > FEW else 'add "%s"' % uri_of(draw.randrange(SONGS))
    if kind < 76:
        return 'move %d %d' % (place(), place())
    if kind < 86:
        return 'swap %d %d' % (place(), place())
    if kind < 96:
        return 'prio %d %d' % (draw.randrange(256), place())
    if kind < 99:
        return 'shuffle %d:%d' % (place(), FEW // 2 + place())
    return 'move %d:%d %d' % (place() // 2, FEW // 4 + place() // 2, place() // 2)


def edits(day, client, draw):
    """Edits the queue. If what is deleted is gone already, the line is refused, which is right."""
    length = int(client.value('status', 'playlistlength'))
    lines = [edit(draw, length) for _ in range(SHARE)]
    in_list = draw.randrange(2) == 0
    begin = time.monotonic()
    if in_list:
        client.send('\n'.join(['command_list_ok_begin', *lines, 'command_list_end']))
        answer = client.answer()
        made, refused = answer.count('list_OK'), answer[-1] != 'OK'
    else:
        client.send('\n'.join(lines))
        last = [client.answer()[-1] for _ in lines]
        made, refused = last.count('OK'), sum(word != 'OK' for word in last)
    day.answered(made, refused, time.monotonic() - begin)


def plays(day, client, draw):
    """Changes modes, and skips now and then."""
    client.must(draw.choice(['random 1', 'random 0', 'crossfade 0', 'crossfade 1', 'setvol %d' % draw.randrange(101), 'pause 0', 'single 0']))
    if client.value('status', 'state') != 'play':
        client.must('play')
    client.ask(draw.choice(['next', 'previous', 'currentsong', 'playlistinfo 0:20']))
    day.count('skips')
    time.sleep(0.05)


def switches(day, client):
    """Switches the second output off and on."""
    client.must('disableoutput 1')
    time.sleep(0.1)
    client.must('enableoutput 1')
    time.sleep(0.2)
    day.count('switches')


def scans(day, client, more):
    """Adds an album to the folder of music, or removes it again, and has the folder scanned; no queue uses this album."""
    if os.path.exists(more):
        shutil.rmtree(more)
    else:
        put_songs(more, 10, LENGTH)
    client.must('update')
    while client.value('status', 'updating_db') and not day.is_over.is_set():
        time.sleep(0.02)
    day.count('scans')
    time.sleep(0.5)


def waits(day, client):
    """Waits in `idle`."""
    client.must('idle playlist player mixer options output database update')
    day.count('notices')


def repeats(day, work, *words):
    """A client that does one of these works again and again until the day is over."""
    try:
        client = day.daemon.client()
        while not day.is_over.is_set():
            work(day, client, *words)
        client.close()
    except Exception as fault:
        with day.lock:
            day.faults.append('%s: %s' % (work.__name__, fault))
        day.is_over.set()


def written(daemon):
    """How many bytes the daemon has written, nearly all of them to outputs."""
    with open('/proc/%d/io' % daemon.process.pid) as file:
        return int(next(line.split()[1] for line in file if line.startswith('wchar:')))


def main():
    given = given_to("A day's work in minutes.", edits=(1_000_000, 'how many edits'), songs=(10_000, 'how many songs'),
                     seconds=(600, 'how many seconds it may take'))
    table = Table('A day: %d edits, %d songs' % (given.edits, given.songs), 34, 60)
    with tempfile.TemporaryDirectory() as folder:
        live(table, program_of(given.program), folder, given)
    return table.status()


def live(table, program, folder, given):
    music = os.path.join(folder, 'music')
    put_songs(music, SONGS, LENGTH)
    daemon = Daemon(program, folder, music, ['/dev/null', '/dev/null'], shelf=os.path.join(folder, 'shelf'), more='state = "%s"' % os.path.join(folder, 'state'))
    client = daemon.client()
    for line in ('repeat 1', 'add ""', 'add ""', 'play'):
        client.must(line)
    day = Day(daemon)
    works = [(edits, random.Random(number)) for number in range(4)]
    works += [(plays, random.Random(4)), (switches,), (scans, os.path.join(music, 'more')), (waits,)]
    threads = [threading.Thread(target=repeats, args=(day, *work), daemon=True) for work in works]
    begin, memory = time.monotonic(), []
    for thread in threads:
        thread.start()
    # 4 bytes for each frame, to two outputs, of which one is switched off now and then; and a tenth more for the answers.
    enough = given.songs * LENGTH * 4 * 2.2
    while not day.is_over.wait(0.05) and time.monotonic() - begin < given.seconds:
        if day.edits >= len(memory) * given.edits / 10 and len(memory) < 11:
            memory.append(daemon.memory())
        if day.edits >= given.edits and written(daemon) >= enough:
            break
    took = time.monotonic() - begin
    day.is_over.set()
    client.must('setvol 99')
    for thread in threads:
        thread.join(10)
    memory.append(daemon.memory())
    tell(table, day, given, took, memory)
    settle(table, daemon, given)


def tell(table, day, given, took, memory):
    table.row('edits', '%d made, %d refused, in %.0f s' % (day.edits, day.refused, took), right=day.edits >= given.edits and not day.faults)
    for fault in day.faults:
        table.row('', fault, right=False)
    table.row('scans, switches, skips, notices', ', '.join('%d' % day.counts[name] for name in ('scans', 'switches', 'skips', 'notices')), right=all(day.counts.values()))
    table.row('slowest answer to %d lines' % SHARE, '%.0f ms' % (1000 * day.slowest), right=day.slowest < SLOWEST)
    table.row('memory at each tenth, MB', ' '.join('%.1f' % part for part in memory), right=max(memory[5:]) - memory[5] < GROWTH)


def settle(table, daemon, given):
    status, lines = daemon.end()
    books = [[int(word) for word in BOOKS.match(line).groups()] for line in lines if BOOKS.match(line)]
    for output, decoded, written, discarded, left in books:
        table.row('output %d' % output, 'decoded %d = %d + %d + %d' % (decoded, written, discarded, left), right=decoded == written + discarded + left)
    songs = books[0][1] // LENGTH if books else 0
    table.row('songs that were played', '%d, status %d' % (songs, status), right=len(books) == 2 and songs >= given.songs and status == 0)


if __name__ == '__main__':
    sys.exit(main())
