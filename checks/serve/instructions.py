#!/usr/bin/env python3
"""Counts the instructions that a ping and a frame take (with callgrind). For each, two runs are made, of which the second does twice as much; the
difference is counted.

    checks/serve/instructions.py [PROGRAM] [--where]

Counted are: a ping in a script, from its line to its printed answer; a ping of a client of the daemon, of which 64 are sent together, alone and
while ten other clients are in `idle`; and a frame of a file, at full volume, through one output to /dev/null. With --where it shows which functions
take the instructions, including everything that each function calls: for a ping; for an `add` in a command list of 1,000; in a queue of 16,000 for
`plchangesposid` after a change, for `shuffle`, and for `status` while paused in random order; for a notice to a client in `idle`, with its `idle` and
the change; for each unchanged file of an `update`; and for a frame without and with cross-fades. It leaves out functions that take less than a
twentieth (except the lock), and those around everything. It needs Debian's package valgrind.
"""
import os
import re
import struct
import subprocess
import sys
import tempfile

sys.dont_write_bytecode = True

from daemon import Daemon, Table, arguments_of, program_of, put_songs, wave

PINGS = 20_000
IN_FLIGHT = 64
FRAMES = 2_000_000
RATE = 44_100


def counting(program, out):
    return ['valgrind', '--tool=callgrind', '--callgrind-out-file=%s' % out, program]


def counted(out):
    """How many instructions a run took."""
    with open(out, encoding='utf-8') as told:
        return int(re.search(r'^(?:summary|totals): (\d+)', told.read(), re.M)[1])


def by_function(out):
    """How many instructions each function took in a run, including everything that it calls."""
    words = ['callgrind_annotate', '--inclusive=yes', '--threshold=100', '--show-percs=no', out]
    told = subprocess.run(words, stdout=subprocess.PIPE, check=True).stdout.decode()
    found = {}
    for count, name in re.findall(r'^ *([\d,]+) +\S*?:(.+?)(?: \[[^]]*\])?$', told, re.M):
        found[name] = max(found.get(name, 0), int(count.replace(',', '')))
    return found


def of_script(program, pings):
    with tempfile.TemporaryDirectory() as folder:
        out = os.path.join(folder, 'out')
        subprocess.run([*counting(program, out), 'script'], input=b'1 ping\n' * pings, stdout=subprocess.DEVNULL, stderr=subprocess.DEVNULL, check=True)
        return counted(out)


class Counted(Daemon):
    """A daemon that callgrind runs."""

    def __init__(self, program, folder, music, outputs):
        self.out = os.path.join(folder, 'out')
        wrapper = os.path.join(folder, 'counted')
        with open(wrapper, 'w', encoding='utf-8') as file:
            file.write('#!/bin/sh\nexec %s "$@"\n' % ' '.join(counting(program, self.out)))
        os.chmod(wrapper, 0o755)
        super().__init__(wrapper, folder, music, outputs)


def of_flight(program, pings, idle, read=counted):
    with tempfile.TemporaryDirectory() as folder:
        music = os.path.join(folder, 'music')
        os.mkdir(music)
        daemon = Counted(program, folder, music, [])
        waiting = [daemon.client() for _ in range(idle)]
        for one in waiting:
            one.send('idle')
        client = daemon.client()
        for _ in range(pings // IN_FLIGHT):
            client.pings(IN_FLIGHT)
        client.close()
        for one in waiting:
            one.close()
        daemon.end()
        return read(daemon.out)


def of_queue(program, entries, line, count, read, before=()):
    """The same for a line that a client sends so many times, in command lists of 1,000, with so many entries in the queue, after other lines."""
    with tempfile.TemporaryDirectory() as folder:
        music = os.path.join(folder, 'music')
        put_songs(music, 1, 441)
        daemon = Counted(program, folder, music, [])
        client = daemon.client()
        uri = client.value('listall', 'file')
        for start in range(0, entries, 1000):
            in_list(client, ['add "%s"' % uri] * min(1000, entries - start))
        version = client.value('status', 'playlist')
        if entries:
            client.must('swap 100 %d' % (entries - 100))
        for text in before:
            client.must(text)
        for start in range(0, count, 1000):
            in_list(client, [line.format(uri=uri, version=version)] * min(1000, count - start))
            if not entries:
                client.must('clear')
        client.close()
        daemon.end()
        return read(daemon.out)


def in_list(client, lines):
    client.must('\n'.join(['command_list_begin', *lines, 'command_list_end']))


def of_notices(program, changes, read):
    with tempfile.TemporaryDirectory() as folder:
        music = os.path.join(folder, 'music')
        os.mkdir(music)
        daemon = Counted(program, folder, music, [])
        waiting, client = daemon.client(), daemon.client()
        for number in range(changes):
            waiting.send('idle options')
            client.must('repeat %d' % ((number + 1) % 2))
            waiting.answer()
        waiting.close()
        client.close()
        daemon.end()
        return read(daemon.out)


def of_updates(program, files, updates, read):
    with tempfile.TemporaryDirectory() as folder:
        music = os.path.join(folder, 'music')
        put_songs(music, files, 441)
        daemon = Counted(program, folder, music, [])
        client = daemon.client()
        for _ in range(updates):
            client.must('update')
            while client.value('status', 'updating_db'):
                client.must('idle update')
        client.close()
        daemon.end()
        return read(daemon.out)


def of_frames(program, frames, read=counted, entries=1, fade=0):
    with tempfile.TemporaryDirectory() as folder:
        music = os.path.join(folder, 'music')
        os.mkdir(music)
        head = wave([])
        with open(os.path.join(music, 'long.wav'), 'wb') as file:
            file.write(head[:-4] + struct.pack('<I', 4 * frames) + os.urandom(4 * frames))
        daemon = Counted(program, folder, music, ['/dev/null'])
        client = daemon.client()
        for _ in range(entries):
            client.must('add ""')
        client.must('crossfade %d' % fade)
        client.must('play')
        while client.value('status', 'state') != 'stop':
            client.must('idle player')
        client.close()
        daemon.end()
        return read(daemon.out)


def show_parts(what, less, more, count):
    """Prints how many instructions each function takes for one ping, line or frame, from two runs that differ by so many of them."""
    each = {name: (more[name] - less.get(name, 0)) / count for name in more}
    whole = max(each.values())
    table = Table('\n%s: %.0f' % (what, whole), -8, 70)
    for name, part in sorted(each.items(), key=lambda item: -item[1]):
        if whole / 20 <= part < whole * 0.98 or part >= 1 and 'Mutex::lock' in name:
            table.row('%.0f' % part if whole >= 1000 else '%.1f' % part, re.sub('::<#[0-9a-f]+>', '', name))


def show_where(program):
    done = PINGS // IN_FLIGHT * IN_FLIGHT
    show_parts('A `ping`', of_flight(program, done, 0, by_function), of_flight(program, 2 * done, 0, by_function), done)
    show_parts('An `add` in a list', *(of_queue(program, 0, 'add "{uri}"', count, by_function) for count in (4000, 8000)), 4000)
    show_parts('`plchangesposid`', *(of_queue(program, 16000, 'plchangesposid {version}', count, by_function) for count in (1000, 3000)), 2000)
    show_parts('`shuffle`', *(of_queue(program, 16000, 'shuffle', count, by_function) for count in (20, 60)), 40)
    paused = ('random 1', 'play 0', 'pause 1')
    show_parts('`status` in random order', *(of_queue(program, 16000, 'status', count, by_function, paused) for count in (1000, 2000)), 1000)
    show_parts('A notice', *(of_notices(program, changes, by_function) for changes in (1000, 3000)), 2000)
    show_parts('A file of an `update`', *(of_updates(program, 1000, updates, by_function) for updates in (2, 6)), 4000)
    show_parts('A frame', of_frames(program, FRAMES, by_function), of_frames(program, 2 * FRAMES, by_function), FRAMES)
    # Songs of 30 seconds, each of which fades into the next for 10 seconds: two more songs are 40 more seconds of sound.
    less, more = (of_frames(program, 30 * RATE, by_function, entries, 10) for entries in (2, 4))
    show_parts('A frame, a third of which fade', less, more, 40 * RATE)


def main():
    parser = arguments_of('Counts the instructions that a ping and a frame take.')
    parser.add_argument('--where', action='store_true', help='show which functions take the instructions')
    given = parser.parse_args()
    program = program_of(given.program)
    if given.where:
        return show_where(program)
    table = Table('Instructions', 36, -8)
    done = PINGS // IN_FLIGHT * IN_FLIGHT
    table.row('a `ping` of a script', '%.0f' % ((of_script(program, 2 * PINGS) - of_script(program, PINGS)) / PINGS))
    for idle in (0, 10):
        difference = of_flight(program, 2 * done, idle) - of_flight(program, done, idle)
        table.row('a `ping` of a client, %d others idle' % idle, '%.0f' % (difference / done))
    table.row('a frame through one output', '%.1f' % ((of_frames(program, 2 * FRAMES) - of_frames(program, FRAMES)) / FRAMES))


if __name__ == '__main__':
    main()
