"""The figures of beside_mpd.py for which both servers are started again: those with a larger library, and frames a second, processor time and
wake-ups while they play."""
import os
import struct
import tempfile
import time

from daemon import Daemon, Mpd, NULL, Pacer, put_songs, wave

RATE = 44100
LIBRARY = 5000
SONG = 30 * RATE      # how many frames a song has, of 16 bits and two channels
FADE = 10             # how many seconds a cross-fade takes
SECONDS = 10          # for how many seconds processor time and wake-ups are counted
FAST = 'type "null"\nsync "no"\nmixer_type "software"'
PIPE = 'type "fifo"\npath "%s"\nformat "44100:16:2"'


def put_song(music):
    os.mkdir(music)
    head = wave([])
    with open(os.path.join(music, 'song.wav'), 'wb') as file:
        file.write(head[:-4] + struct.pack('<I', 4 * SONG) + os.urandom(4 * SONG))


class Pair:
    """Both servers on the same folder, each with its own outputs."""

    def __init__(self, program, folder, music, with_mpd, outputs, of_mpd):
        own = tempfile.mkdtemp(dir=folder)
        self.servers = {'music_daemon': Daemon(program, own, music, outputs)}
        if with_mpd:
            self.servers['mpd'] = Mpd(tempfile.mkdtemp(dir=folder), music, outputs=of_mpd)

    def figures(self, measured):
        found = {name: measured(server) for name, server in self.servers.items()}
        for server in self.servers.values():
            server.kill()
        return found


def queue(client, entries):
    client.must('clear')
    client.must('\n'.join(['command_list_begin', *['add "song.wav"'] * entries, 'command_list_end']))


def speed(entries, fade, volume):
    """While so many songs are played at a volume, each of which fades into the next for so many seconds: million frames a second, and the seconds
    of processor time for an hour of sound."""
    def measured(server):
        client = server.client()
        queue(client, entries)
        client.must('crossfade %d' % fade)
        client.must('setvol %d' % volume)
        start, used = time.perf_counter(), server.seconds()
        client.must('play 0')
        while client.value('status', 'state') != 'stop':
            # This asks again and again instead of waiting for a notice, since MPD now and then stops at the end of a song until a client asks.
            time.sleep(0.01)
        passed, used = time.perf_counter() - start, server.seconds() - used
        client.close()
        frames = entries * SONG - (entries - 1) * fade * RATE
        return frames / passed / 1e6, used * 3600 * RATE / frames
    return measured


def woken(server):
    """How often the threads of a server were woken, which is how often they had given up the processor by themselves."""
    folder, count = '/proc/%d/task' % server.process.pid, 0
    for task in os.listdir(folder):
        with open('%s/%s/status' % (folder, task)) as file:
            count += next(int(line.split()[1]) for line in file if line.startswith('voluntary_ctxt'))
    return count


def costs(server):
    """Processor time, in percent of one processor, and wake-ups a second."""
    start, used, before = time.perf_counter(), server.seconds(), woken(server)
    time.sleep(SECONDS)
    passed = time.perf_counter() - start
    return 100 * (server.seconds() - used) / passed, (woken(server) - before) / passed


def of_pipes(server):
    client = server.client()
    queue(client, 10)
    client.must('play 0')
    time.sleep(2)
    found = costs(server)
    client.must('stop')
    client.close()
    return found


def of_idle(server):
    """Processor time and wake-ups a second while ten clients wait in `idle`."""
    waiting = [server.client() for _ in range(10)]
    for one in waiting:
        one.send('idle')
    time.sleep(1)
    found = costs(server)
    for one in waiting:
        one.close()
    return found


def of_library(server):
    """Milliseconds that `listall` takes, and an `update` that finds no change: each the best of five times."""
    client, listed, updated = server.client(), [], []
    for _ in range(5):
        start = time.perf_counter()
        client.send('listall')
        held = bytearray()
        while not held.endswith(b'\nOK\n'):
            held += client.socket.recv(1 << 20)
        listed.append(time.perf_counter() - start)
    for _ in range(5):
        start = time.perf_counter()
        client.must('update')
        while any(line.startswith('updating_db') for line in client.must('status')):
            time.sleep(0.001)
        updated.append(time.perf_counter() - start)
    client.close()
    return min(listed) * 1e3, min(updated) * 1e3


def figures(program, folder, with_mpd):
    """Rows with a name, a unit, and a figure for each server."""
    library, music = os.path.join(folder, 'library'), os.path.join(folder, 'music')
    put_songs(library, LIBRARY, 441)
    put_song(music)
    large = Pair(program, folder, library, with_mpd, ['/dev/null'], [NULL]).figures(of_library)
    yield 'listall, 5,000 songs', 'ms', {name: it[0] for name, it in large.items()}
    yield 'update, 5,000 unchanged files', 'ms', {name: it[1] for name, it in large.items()}
    for name, outputs, entries, fade, volume in (('1 null output', 1, 150, 0, 100), ('1, at volume 50', 1, 60, 0, 50),
                                                 ('1, with cross-fades', 1, 60, FADE, 100), ('3 null outputs', 3, 40, 0, 100)):
        pair = Pair(program, folder, music, with_mpd, ['/dev/null'] * outputs, [FAST] * outputs)
        found = pair.figures(speed(entries, fade, volume))
        yield 'frames a second, ' + name, 'million', {server: it[0] for server, it in found.items()}
        yield 'processor for an hour, the same', 's', {server: it[1] for server, it in found.items()}
    paths = [[os.path.join(folder, '%s%d' % (kind, number)) for number in range(2)] for kind in ('own', 'other')]
    pacers = [Pacer(path, RATE) for path in paths[0] + (paths[1] if with_mpd else [])]
    found = Pair(program, folder, music, with_mpd, paths[0], [PIPE % path for path in paths[1]]).figures(of_pipes)
    for pacer in pacers:
        pacer.kill()
    idle = Pair(program, folder, music, with_mpd, ['/dev/null'], [FAST]).figures(of_idle)
    yield 'processor, playing to two FIFOs', '%', {name: it[0] for name, it in found.items()}
    yield 'wake-ups a second, the same', '', {name: it[1] for name, it in found.items()}
    yield 'wake-ups a second, idle', '', {name: it[1] for name, it in idle.items()}
    yield 'processor, idle', '%', {name: it[0] for name, it in idle.items()}
