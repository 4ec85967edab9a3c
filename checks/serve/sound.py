#!/usr/bin/env python3
"""Checks the bytes that outputs write: the daemon plays known folders to files, which are compared with the frames that the definitions give;
these are computed here from the samples.

    checks/serve/sound.py [PROGRAM]
"""
import os
import random
import sys
import tempfile
import time

sys.dont_write_bytecode = True

from daemon import Daemon, Pacer, Table, program_of, wave

RATE = 8000
PLAY = 60  # how many seconds playing a queue may take


def samples(seed, frames, channels, bits):
    """Frames of noise, with the least and the greatest values at the beginning."""
    draw = random.Random(seed)
    least, most = (0, 255) if bits == 8 else (-(1 << (bits - 1)), (1 << (bits - 1)) - 1)
    noise = [tuple(draw.randint(least, most) for _ in range(channels)) for _ in range(frames)]
    return [(least,) * channels, (most,) * channels, *noise][:frames]


def heard(frames, bits):
    """The frames as left and right samples of 16 bits: 8 bits are widened, 24 bits are cut to the high ones, and one channel is doubled."""
    def sample(value):
        return (value - 128) * 256 if bits == 8 else value if bits == 16 else value >> 8
    return [(sample(frame[0]), sample(frame[-1])) for frame in frames]


def toward_zero(number, by):
    return number // by if number >= 0 else -(-number // by)


def gained(frames, volume):
    return [tuple(toward_zero(sample * volume, 100) for sample in frame) for frame in frames]


def faded(first, second):
    """Two pieces of the same length, mixed: the first fades out, the second fades in."""
    length = len(first)
    return [tuple(toward_zero(a * (length - i) + b * i, length) for a, b in zip(x, y)) for i, (x, y) in enumerate(zip(first, second))]


def played(songs, seconds=0):
    """The frames of songs in order, each fading into the next. A fade ends with its song; the next song goes on after it."""
    out, at = [], 0
    for song, follower in zip(songs, songs[1:] + [None]):
        if follower is None or seconds == 0:
            out += song[at:]
            at = 0
            continue
        begin = max(at, len(song) - min(RATE * seconds, len(song), len(follower)))
        length = min(RATE * seconds, len(song) - begin, len(follower))
        out += song[at:begin] + faded(song[begin:begin + length], follower[:length])
        at = length
    return out


def as_bytes(frames):
    return b''.join(sample.to_bytes(2, 'little', signed=True) for frame in frames for sample in frame)


def wait_for_size(path, size):
    """Waits until a file has so many bytes, and a little longer, in case more come."""
    end = time.monotonic() + PLAY
    while time.monotonic() < end and (not os.path.exists(path) or os.path.getsize(path) < size):
        time.sleep(0.02)
    time.sleep(0.2)


# name, frames, channels, bits, and whether the format is the extensible one
SONGS = [
    ('a.wav', 20001, 2, 16, False), ('b.wav', 12345, 1, 8, False), ('c.wav', 9000, 2, 24, True), ('d.wav', 1, 1, 16, False),
    ('e.wav', 1024, 2, 8, False), ('f.wav', 30000, 1, 24, False), ('g.wav', 2048, 1, 16, True),
]


def put_folder(folder):
    """Writes the songs into a folder, and returns their frames as they should be heard, in the byte order of their names."""
    os.makedirs(folder)
    songs = []
    for seed, (name, frames, channels, bits, extensible) in enumerate(SONGS):
        content = samples(seed, frames, channels, bits)
        with open(os.path.join(folder, name), 'wb') as file:
            file.write(wave(content, channels, bits, RATE, extensible, [(b'INAM', name)]))
        songs.append(heard(content, bits))
    return songs


def first_difference(one, other):
    return next((i for i, (a, b) in enumerate(zip(one, other)) if a != b), min(len(one), len(other)))


def check_queue(table, program, folder, music, case, lines, wanted):
    """Plays a queue to two files and compares both; a third output is off, and must not make a file."""
    paths = [os.path.join(folder, '%s %d' % (case, number)) for number in range(3)]
    daemon = Daemon(program, folder, music, [paths[0], paths[1], (paths[2], False)], rate=RATE)
    client = daemon.client()
    for line in lines:
        client.must(line)
    wanted = as_bytes(wanted)
    for path in paths[:2]:
        wait_for_size(path, len(wanted))
    state = client.value('status', 'state')
    status, summary = daemon.end()
    count = len(wanted) // 4
    for number in range(2):
        found = open(paths[number], 'rb').read() if os.path.exists(paths[number]) else b''
        right = found == wanted and summary[number] == 'output %d: decoded %d written %d discarded 0 left 0' % (number, count, count)
        told = '%d bytes' % len(found) + ('' if found == wanted else ' of %d, wrong from byte %d on' % (len(wanted), first_difference(found, wanted)))
        table.row(case, number, told, summary[number], right=right and state == 'stop' and status == 0)
    off = 'output 2: decoded 0 written 0 discarded 0 left 0'
    table.row(case, 2, 'no file' if not os.path.exists(paths[2]) else 'a file', summary[2], right=not os.path.exists(paths[2]) and summary[2] == off)


def check_a_seek(table, program, folder, music, songs):
    """A seek, with an output that is read at the pace of a sound card, and one to a file. The file gets the beginning of the queue, and then the
    rest of the song from the place of the seek. The other output has discarded what it did not write, and at the end the rest is left over."""
    fifo, path = os.path.join(folder, 'fifo'), os.path.join(folder, 'sought')
    pacer = Pacer(fifo, RATE)
    daemon = Daemon(program, folder, music, [path, fifo], rate=RATE)
    client = daemon.client()
    for line in ['add a.wav', 'add f.wav', 'play 0']:
        client.must(line)
    time.sleep(0.5)
    client.must('seek 1 2.5')
    end = time.monotonic() + PLAY
    while time.monotonic() < end and client.value('status', 'state') != 'stop':
        time.sleep(0.05)
    time.sleep(1.5)
    _status, summary = daemon.end()
    pacer.kill()
    found, rest = open(path, 'rb').read(), as_bytes(songs[5][20000:])
    front = found[:len(found) - len(rest)]
    right = found.endswith(rest) and 0 < len(front) and as_bytes(songs[0] + songs[5]).startswith(front)
    table.row('a seek', 0, '%d bytes, then %d from the place of the seek' % (len(front), len(rest)), summary[0], right=right)
    words = summary[1].split()
    settled = len(words) == 10 and int(words[3]) == int(words[5]) + int(words[7]) + int(words[9]) and int(words[7]) > 0
    table.row('a seek', 1, 'decoded = written + discarded + left', summary[1], right=settled)


def main():
    program = program_of(sys.argv[1] if len(sys.argv) > 1 else None)
    table = Table('The bytes that outputs write', 26, 6, 42, 60)
    table.row('queue', 'output', 'file', 'summary')
    with tempfile.TemporaryDirectory() as folder:
        music = os.path.join(folder, 'music')
        songs = put_folder(music)
        check_queue(table, program, folder, music, 'all songs', ['add ""', 'play'], played(songs))
        check_queue(table, program, folder, music, 'half the volume', ['add ""', 'setvol 50', 'play'], gained(played(songs), 50))
        check_queue(table, program, folder, music, 'fades of a second', ['add ""', 'setvol 73', 'crossfade 1', 'play'], gained(played(songs, 1), 73))
        check_queue(table, program, folder, music, 'long fades', ['add a.wav', 'add f.wav', 'add b.wav', 'crossfade 10', 'play'],
                    played([songs[0], songs[5], songs[1]], 10))
        check_queue(table, program, folder, music, 'from within a song', ['add b.wav', 'add d.wav', 'seek 0 1.5'], played([songs[1][12000:], songs[3]]))
        check_queue(table, program, folder, music, 'silence at volume 0', ['add e.wav', 'setvol 0', 'play'], gained(songs[4], 0))
        check_a_seek(table, program, folder, music, songs)
    return table.status()


if __name__ == '__main__':
    sys.exit(main())
