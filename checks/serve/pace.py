#!/usr/bin/env python3
"""Measures what the daemon costs while it is stopped, paused and playing, and how fast it decodes.

    checks/serve/pace.py [PROGRAM] [--seconds N]

With 0, 1, 3 and 8 outputs that are read as fast as they are heard, it prints processor time (in percent of one processor) and memory, and checks
that the frame counts balance. Then it prints frames a second through one and through three outputs that take everything at once (/dev/null); and
microseconds of a ping: alone, while three more clients ping, and while the decoder and three such outputs take the lock for each block. A daemon
that is stopped or paused may use half a percent of one processor.
"""
import os
import re
import struct
import subprocess
import sys
import tempfile
import time

sys.dont_write_bytecode = True

from daemon import Daemon, Pacer, Table, given_to, program_of, put_songs, status_of, wave

RATE = 44100
LONG = 10_000_000  # how many frames the long song has, of 16 bits and two channels
IDLE = 0.5
PINGS = 64  # how many pings are sent together
FLOOD = 'import socket, sys\nclient = socket.create_connection(("127.0.0.1", int(sys.argv[1])))\nclient.recv(100)\n' \
    'while True:\n    client.sendall(b"ping\\n" * 64)\n    held = 0\n    while held < 192:\n        held += len(client.recv(4096))\n'


def used(daemon, seconds):
    """Processor time in percent, while no client sends requests."""
    start, before = time.monotonic(), daemon.seconds()
    time.sleep(seconds)
    return 100 * (daemon.seconds() - before) / (time.monotonic() - start)


def settled(summary):
    """The frame counts of each output, and whether every decoded frame was written, discarded or left over."""
    found = [[int(number) for number in re.findall(r'[a-z]+ (\d+)(?= |$)', line.split(':')[1])] for line in summary]
    return found, all(len(it) == 4 and it[0] == sum(it[1:]) for it in found)


def check_idle(table, program, count, seconds):
    with tempfile.TemporaryDirectory() as folder:
        music = os.path.join(folder, 'music')
        put_songs(music, 3, 120 * RATE)
        paths = [os.path.join(folder, 'fifo%d' % number) for number in range(count)]
        pacers = [Pacer(path, RATE) for path in paths]
        daemon = Daemon(program, folder, music, paths)
        client = daemon.client()
        client.must('add ""')
        client.must('repeat 1')
        stopped = used(daemon, seconds)
        # Without an output nothing takes frames, so nothing is played.
        playing = paused = 0.0
        if count:
            client.must('play')
            time.sleep(1)
            playing = used(daemon, seconds)
            client.must('pause 1')
            time.sleep(1)
            paused = used(daemon, seconds)
        memory = daemon.memory()
        client.must('stop')
        client.close()
        status, summary = daemon.end()
        for pacer in pacers:
            pacer.kill()
        numbers, right = settled(summary)
        right = right and status == 0 and len(numbers) == count and stopped <= IDLE and paused <= IDLE
        table.row(count, '%.2f %%' % stopped, '%.2f %%' % paused, '%.2f %%' % playing, '%.1f MB' % memory,
                  'settled' if right else summary, right=right)


def put_long_song(music):
    os.mkdir(music)
    head = wave([])
    with open(os.path.join(music, 'long.wav'), 'wb') as file:
        file.write(head[:-4] + struct.pack('<I', 4 * LONG))
        for _ in range(LONG // 100_000):
            file.write(os.urandom(400_000))


def check_speed(table, program, count, seconds):
    with tempfile.TemporaryDirectory() as folder:
        music = os.path.join(folder, 'music')
        put_long_song(music)
        daemon = Daemon(program, folder, music, ['/dev/null'] * count)
        client = daemon.client()
        client.must('add ""')
        client.must('repeat 1')
        start, before = time.monotonic(), daemon.seconds()
        client.must('play')
        time.sleep(seconds)
        client.must('stop')
        passed, processor = time.monotonic() - start, daemon.seconds() - before
        client.close()
        status, summary = daemon.end()
        numbers, right = settled(summary)
        right = right and status == 0 and len(numbers) == count and all(it[0] > 0 for it in numbers)
        table.row(count, '%.1f million' % (max(it[0] for it in numbers) / passed / 1e6), '%.0f %%' % (100 * processor / passed), right=right)


def ping_time(client, seconds):
    """Microseconds for each ping if 64 are sent together."""
    count, start = 0, time.monotonic()
    while time.monotonic() - start < seconds:
        client.pings(PINGS)
        count += PINGS
    return 1e6 * (time.monotonic() - start) / count


def check_callers(table, program, seconds):
    with tempfile.TemporaryDirectory() as folder:
        music = os.path.join(folder, 'music')
        put_long_song(music)
        daemon = Daemon(program, folder, music, ['/dev/null'] * 3)
        client = daemon.client()
        client.must('add ""')
        client.must('repeat 1')
        alone = ping_time(client, seconds)
        others = [subprocess.Popen([sys.executable, '-c', FLOOD, str(daemon.port)]) for _ in range(3)]
        time.sleep(1)
        beside_clients = ping_time(client, seconds)
        for one in others:
            one.kill()
            one.wait()
        client.must('play')
        beside_outputs = ping_time(client, seconds)
        client.must('stop')
        client.close()
        status, summary = daemon.end()
        numbers, right = settled(summary)
        table.row(*['%.2f us' % it for it in (alone, beside_clients, beside_outputs)], right=right and status == 0 and numbers[0][0] > 0)


def main():
    given = given_to('Measures what the daemon costs, and how fast it decodes.', seconds=(10.0, 'for how long each figure is measured'))
    program = program_of(given.program)
    idle = Table('Processor time, of one processor\n  outputs  stopped   paused    playing   memory     the end', 7, 8, 8, 8, 9, 60)
    for count in (0, 1, 3, 8):
        check_idle(idle, program, count, given.seconds)
    speed = Table('\nFrames a second into /dev/null\n  outputs  frames          processor', 7, 14, 10)
    for count in (1, 3):
        check_speed(speed, program, count, given.seconds)
    pings = Table('\nA ping, 64 in flight\n  alone     3 clients  3 outputs', 8, 9, 9)
    check_callers(pings, program, given.seconds / 2)
    return status_of(idle.failed + speed.failed + pings.failed)


if __name__ == '__main__':
    sys.exit(main())
