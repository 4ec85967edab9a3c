#!/usr/bin/env python3
"""Checks the saved state: what comes back after a restart, also of partitions; kill -9 while clients edit; kills at each call on the state's
files; and files that are not a saved state.

    checks/serve/state.py [PROGRAM] [--times N] [--beside N]      (by default 200 kills, and 8 daemons at a time)

One client edits the queue without a pause, and in a second series one client in each of three partitions; the daemon is killed at a random moment
and started again with the same state file. The queue that comes back must be one that was there at most three seconds before the kill; before the
first write, it is the one from the start. The full disk is a small one in memory, and the file of another user is read as the user nobody; both
need root.
"""
import concurrent.futures
import os
import random
import shutil
import subprocess
import sys
import tempfile
import threading
import time

sys.dont_write_bytecode = True

from daemon import Daemon, Pacer, Table, given_to, program_of, put_songs, status_of, uri_of

OLDEST = 3.0    # how many seconds old the queue that comes back may be
LONGEST = 5.0   # how many seconds a client has at most before the kill
PLAYED = 12.0   # how many seconds the saved position in a playing song may be behind; it is saved every ten seconds
WRITTEN = 3.0   # how many seconds it may take until a change is in the file
NOBODY = 65534
KEYS = ('volume', 'repeat', 'random', 'single', 'consume', 'playlistlength', 'xfade', 'state', 'song', 'elapsed')


def queue_of(client):
    """The queue: the URI and the priority of each entry."""
    found = []
    for line in client.must('playlistinfo'):
        key, _, value = line.partition(': ')
        if key == 'file':
            found.append([value, 0])
        elif key == 'Prio':
            found[-1][1] = int(value)
    return tuple(map(tuple, found))


def state_of(client):
    lines = dict(line.split(': ', 1) for line in client.must('status'))
    return {key: lines.get(key) for key in KEYS}, queue_of(client), client.must('outputs')


def started(program, folder, music, path, outputs=()):
    return Daemon(program, folder, music, outputs, more='state = "%s"' % path)


def restarted(start, kept, ends, change, seen):
    """Starts a daemon that has no saved state yet, and lets `change` send it lines; then ends it, with `kill` or kill -9, and starts it again.
    Returns this daemon, and what `seen` says of the daemon before its end and after the restart."""
    if os.path.exists(kept):
        os.remove(kept)
    daemon = start()
    client = daemon.client()
    change(client)
    wanted = seen(client)
    if ends == 'kill':
        daemon.end()
    else:
        time.sleep(OLDEST)
        daemon.kill()
    daemon = start()
    return daemon, wanted, seen(daemon.client())


class Editor(threading.Thread):
    """A client that edits, and each queue that it made, with the time from which and the time until which it was there."""

    def __init__(self, daemon, songs, seed, room='default'):
        super().__init__()
        self.client, self.songs, self.draw = daemon.client(), songs, random.Random(seed)
        self.client.must('partition ' + room)
        self.queues, self.wrong = [[time.monotonic(), None, queue_of(self.client)]], None

    def edit(self, queue):
        """A random edit of this queue: its line, and the queue after it."""
        kind = self.draw.randrange(6)
        if kind < 3 and len(queue) < 30 or not queue:
            song = self.draw.choice(self.songs)
            return 'add "%s"' % song, queue + ((song, 0),)
        place = self.draw.randrange(len(queue))
        others = queue[:place] + queue[place + 1:]
        if kind == 3:
            priority = self.draw.randrange(256)
            return 'prio %d %d' % (priority, place), queue[:place] + ((queue[place][0], priority),) + queue[place + 1:]
        return ('delete %d' % place, others) if kind == 4 else ('move %d 0' % place, (queue[place],) + others)

    def run(self):
        try:
            for number in range(1 << 30):
                line, queue = self.edit(self.queues[-1][2])
                # The new queue may be there from the moment when the line is sent, whether the answer comes or not; the old one until the answer.
                self.queues.append([time.monotonic(), None, queue])
                self.client.must(line)
                self.queues[-2][1] = time.monotonic()
                if number % 20 == 0 and queue_of(self.client) != queue:
                    self.wrong = line
                time.sleep(0.01)
        except (OSError, AssertionError):
            pass


EDITS = ('add "album 00/0003.wav"', 'add "album 00/0001.wav"', 'add ""', 'prio 7 1', 'prio 255 3', 'setvol 41', 'repeat 1', 'single 1', 'consume 1', 'crossfade 3', 'disableoutput 0')
LAST = (
    ('paused', ('seek 2 4.5', 'pause 1')),
    ('stopped', ('play 1', 'stop')),
    ('stopped, one song', ('clear', 'add "album 00/0002.wav"', 'play 0', 'stop')),
    ('no song', ('stop', 'clear')),
    ('random', ('clear', 'random 1', 'add ""', 'seek 4 2', 'pause 1')),
    ('oneshot', ('single oneshot', 'consume oneshot', 'seek 13 1', 'pause 1')),
)


def check_all_back(program, folder, music):
    """Players come back as they were, after `kill` and after kill -9."""
    table = Table('What comes back', 50, 60)
    kept = os.path.join(folder, 'kept')
    for name, last in LAST:
        for ends in ('kill', 'kill -9'):
            daemon, wanted, found = restarted(
                lambda: started(program, folder, music, kept, ['/dev/null']), kept, ends, lambda client: [client.must(line) for line in EDITS + last], state_of)
            told = 'as it was' if found == wanted else '%s instead of %s' % (found, wanted)
            table.row('%s, after %s' % (name, ends), told, right=found == wanted and daemon.errors().count('\n') == 0)
            daemon.end()
    return table.failed


def check_played(program, folder, music):
    """A song that was playing goes on from about where it was."""
    table = Table('\nA song that was playing', 50, 60)
    for ends, most in (('kill', 1.5), ('kill -9', PLAYED)):
        kept, pacer = os.path.join(folder, 'played by ' + ends), Pacer(os.path.join(folder, 'pipe by ' + ends))
        daemon = started(program, folder, music, kept, [pacer.path])
        client = daemon.client()
        for line in ('add ""', 'seek 3 1'):
            client.must(line)
        time.sleep(5)
        wanted = state_of(client)
        if ends == 'kill':
            daemon.end()
        else:
            daemon.kill()
        # Nobody reads its FIFO, so the position cannot move on by more than a ring buffer holds.
        unread = os.path.join(folder, 'unread by ' + ends)
        os.mkfifo(unread)
        daemon = started(program, folder, music, kept, [unread])
        found = state_of(daemon.client())
        # A player that came back without its song has no position. `at` is not a number then, so every comparison with it is false.
        place, at = float(wanted[0].pop('elapsed')), float(found[0].pop('elapsed') or 'nan')
        right = found[:2] == wanted[:2] and place - most <= at <= place + 0.5
        table.row('after %s' % ends, '%.1f s of %.1f s' % (at, place), right=right)
        daemon.kill()
        pacer.kill()
    return table.failed


def killed_once(program, folder, music, songs, number, moment):
    """Kills the daemon once: the age of the queue that came back, and how many edits were made. The age is None if that queue was never there,
    or if an edit had a wrong result."""
    own = os.path.join(folder, 'killed %d' % number)
    os.mkdir(own)
    kept = os.path.join(own, 'state')
    daemon = started(program, own, music, kept)
    editor = Editor(daemon, songs, number)
    editor.start()
    time.sleep(moment)
    killed = time.monotonic()
    daemon.kill()
    editor.join()
    daemon = started(program, own, music, kept)
    found = queue_of(daemon.client())
    told = daemon.errors()
    daemon.kill()
    ages = [killed - (end or killed) for start, end, queue in editor.queues if queue == found]
    return None if editor.wrong or 'state' in told or not ages else max(0.0, min(ages)), len(editor.queues)


def check_kills(program, folder, music, songs, times, beside, once=killed_once, title='kill -9 while a client edits'):
    table = Table('\n' + title, 50, 60)
    draw = random.Random(7)
    with concurrent.futures.ThreadPoolExecutor(beside) as pool:
        runs = [pool.submit(once, program, folder, music, songs, number, draw.uniform(0, LONGEST)) for number in range(times)]
        results = [run.result() for run in runs]
    wrong = [number for number, (age, _) in enumerate(results) if age is None]
    oldest = max([age for age, _ in results if age is not None] or [0.0])
    table.row('kills, and edits before them', '%d, %d' % (times, sum(edits for _, edits in results)))
    table.row('kills after which a wrong queue came back', str(wrong or 'none'), right=not wrong)
    table.row('age of the oldest queue that came back', '%.2f s' % oldest, right=oldest <= OLDEST)
    return table.failed


# For each partition: the outputs that are moved there, and the lines that are sent in it; after these it is paused or stopped.
ROOMS = (
    ('default', (), ('add ""', 'setvol 41', 'seek 3 2', 'pause 1')),
    ('kitchen', ('out1', 'out3'), ('disableoutput 1', 'add "album 00/0003.wav"', 'add "album 00/0001.wav"', 'prio 7 1', 'crossfade 2', 'consume 1', 'seek 1 4.5', 'pause 1')),
    ('bath', ('out2',), ('setvol 3', 'add "album 00/0002.wav"', 'random 1', 'play 0', 'stop')),
)
OUTPUTS = ['/dev/null'] * 4


def open_rooms(client, rooms):
    for name, outputs, lines in rooms:
        if name != 'default':
            client.must('newpartition ' + name)
        for line in ('partition ' + name, *('moveoutput ' + output for output in outputs), *lines):
            client.must(line)


def rooms_of(client):
    """The state of each partition."""
    found = {}
    for line in client.must('listpartitions'):
        name = line.partition(': ')[2]
        client.must('partition ' + name)
        found[name] = state_of(client)
    client.must('partition default')
    return found


def rounded(rooms):
    """The partitions, with the positions in songs in tenths of a second, since a song goes on from a whole frame."""
    def tenths(state):
        return {key: '%.1f' % float(value) if key == 'elapsed' and value else value for key, value in state.items()}
    return {name: (tenths(state), queue, outputs) for name, (state, queue, outputs) in rooms.items()}


def check_rooms(program, folder, music):
    """Partitions come back with their outputs, after `kill` and after kill -9; and if a song no longer exists, nothing else is lost."""
    table = Table('\nPartitions', 50, 60)
    kept = os.path.join(folder, 'rooms')
    for ends in ('kill', 'kill -9'):
        daemon, wanted, found = restarted(
            lambda: started(program, folder, music, kept, OUTPUTS), kept, ends, lambda client: open_rooms(client, ROOMS), rooms_of)
        is_same = rounded(found) == rounded(wanted)
        told = 'as it was' if is_same else '%s instead of %s' % (found, wanted)
        table.row('three partitions, after %s' % ends, told, right=is_same and 'music_daemon: state: ' not in daemon.errors())
        daemon.end()
    with open(kept) as file:
        lines = file.read()
    with open(kept, 'w') as file:
        file.write(lines.replace('album 00/0003.wav', 'gone.wav'))
    daemon = started(program, folder, music, kept, OUTPUTS)
    found = rooms_of(daemon.client())
    right = found['kitchen'][1] == (('album 00/0001.wav', 7),) and rounded(found)['bath'] == rounded(wanted)['bath'] and found['kitchen'][2] == wanted['kitchen'][2]
    table.row('a song that no longer exists', 'the others come back' if right else 'the others do not come back', right=right)
    daemon.kill()
    return table.failed


def rooms_killed_once(program, folder, music, songs, number, moment):
    """Kills the daemon once: the greatest age of the queues that came back in three partitions, and how many edits were made. The age is None
    if one of the queues was never there, or if an output is in another partition or switched differently."""
    own = os.path.join(folder, 'rooms killed %d' % number)
    os.mkdir(own)
    kept = os.path.join(own, 'state')
    daemon = started(program, own, music, kept, OUTPUTS)
    client = daemon.client()
    open_rooms(client, (('kitchen', ('out1', 'out3'), ('disableoutput 1',)), ('bath', ('out2',), ())))
    client.must('partition default')
    client.must('disableoutput 0')
    outputs = {name: state[2] for name, state in rooms_of(client).items()}
    time.sleep(OLDEST)
    editors = {name: Editor(daemon, songs, 3 * number + place, name) for place, (name, _, _) in enumerate(ROOMS)}
    for editor in editors.values():
        editor.start()
    time.sleep(moment)
    killed = time.monotonic()
    daemon.kill()
    for editor in editors.values():
        editor.join()
    daemon = started(program, own, music, kept, OUTPUTS)
    found = rooms_of(daemon.client())
    told = daemon.errors()
    daemon.kill()
    edits = sum(len(editor.queues) for editor in editors.values())
    if 'state' in told or {name: state[2] for name, state in found.items()} != outputs or any(editor.wrong for editor in editors.values()):
        return None, edits
    ages = []
    for name, editor in editors.items():
        stood = [killed - (end or killed) for start, end, queue in editor.queues if queue == found[name][1]]
        if not stood:
            return None, edits
        ages.append(max(0.0, min(stood)))
    return max(ages), edits


CALLS = ('openat', 'write', 'fsync', 'close', 'rename')


def traced_program(program, folder, call, number):
    """Writes a script that runs the program, and kills it when it makes this call on the state's files for the Nth time; returns the folder of
    the script."""
    own = os.path.join(folder, 'stop %s %d' % (call, number))
    os.mkdir(own)
    kept, traced = os.path.join(own, 'state'), os.path.join(own, 'traced')
    with open(kept, 'w') as file:
        file.write('addid "album 00/0001.wav" 0\n')
    paths = ' '.join("-P '%s'" % path for path in (kept, kept + '.new', own))
    with open(traced, 'w') as file:
        file.write('#!/bin/sh\nexec strace -f -qq -o /dev/null %s -e trace=%s -e inject=%s:signal=SIGKILL:when=%d %s "$@"\n' % (paths, ','.join(CALLS), call, number, program))
    os.chmod(traced, 0o755)
    return own


def stopped_once(program, own, music):
    """Runs the script of a folder: whether it killed the daemon; the queue that came back; and how many lines of the file were refused."""
    kept = os.path.join(own, 'state')
    daemon = Daemon(os.path.join(own, 'traced'), own, music, more='state = "%s"' % kept, wait=False)
    try:
        daemon.wait_for_port()
        client = daemon.client()
        for line in ('add "album 00/0002.wav"', 'prio 9 1'):
            client.must(line)
        daemon.process.wait(WRITTEN + 1)
    except (AssertionError, OSError):
        daemon.process.wait(WRITTEN)
    except subprocess.TimeoutExpired:
        daemon.end()
    stopped = daemon.process.returncode not in (0, None)
    daemon = started(program, own, music, kept)
    found = queue_of(daemon.client()), daemon.errors().count('state: ')
    daemon.kill()
    return stopped, found


def check_stops(program, folder, music, beside):
    """The daemon is killed when it opens, writes, syncs, closes or renames a file of the state, at each of the first such calls."""
    table = Table("\nA kill at each call on the state's files", 50, 60)
    if shutil.which('strace') is None:
        table.row('left out', 'strace is not installed')
        return table.failed
    old = (('album 00/0001.wav', 0),)
    middle = old + (('album 00/0002.wav', 0),)
    new = old + (('album 00/0002.wav', 9),)
    # All scripts are written first: a process that is started while one is being written would hold it open, and then it could not be run.
    folders = {(call, number): traced_program(program, folder, call, number) for call in CALLS for number in range(1, 7)}
    with concurrent.futures.ThreadPoolExecutor(beside) as pool:
        runs = {stop: pool.submit(stopped_once, program, own, music) for stop, own in folders.items()}
        results = {stop: run.result() for stop, run in runs.items()}
    stops = {stop: found for stop, (stopped, found) in results.items() if stopped}
    wrong = [stop for stop, (_, (queue, refused)) in results.items() if queue not in (old, middle, new) or refused]
    unstopped = [stop for stop, (stopped, (queue, _)) in results.items() if not stopped and queue != new]
    table.row('kills', ', '.join('%s %d' % (call, sum(1 for stop in stops if stop[0] == call)) for call in CALLS), right=all(any(stop[0] == call for stop in stops) for call in CALLS))
    table.row('the earlier queue came back', str(sum(1 for queue, _ in stops.values() if queue == old)), right=any(queue == old for queue, _ in stops.values()))
    table.row('a later queue came back', str(sum(1 for queue, _ in stops.values() if queue != old)), right=any(queue != old for queue, _ in stops.values()))
    table.row('any other queue, or a refused line', str(wrong or 'none'), right=not wrong)
    table.row('not the last queue, although nothing was killed', str(unstopped or 'none'), right=not unstopped)
    return table.failed


def wait_until(holds):
    end = time.monotonic() + WRITTEN
    while time.monotonic() < end and not holds():
        time.sleep(0.05)
    return holds()


def text_at(path):
    with open(path) as file:
        return file.read()


def check_full(program, folder, music):
    """A disk that is full."""
    table = Table('\nA full disk', 50, 60)
    disk = os.path.join(folder, 'disk')
    os.mkdir(disk)
    if subprocess.run(['mount', '-t', 'tmpfs', '-o', 'size=64k', 'tmpfs', disk], capture_output=True).returncode != 0:
        table.row('left out', 'a small disk cannot be made here')
        return table.failed
    try:
        kept = os.path.join(disk, 'state')
        daemon = started(program, folder, music, kept)
        client = daemon.client()
        client.must('add "album 00/0001.wav"')
        table.row('while there is room, the state is written', 'yes', right=wait_until(lambda: os.path.exists(kept) and '0001' in text_at(kept)))
        with open(os.path.join(disk, 'filler'), 'wb', 0) as filler:
            try:
                while True:
                    filler.write(bytes(4096))
            except OSError:
                pass
        before = text_at(kept)
        for line in ('add ""', 'prio 5 0'):
            client.must(line)
        table.row('the fault is reported', daemon.errors()[-60:], right=wait_until(lambda: 'cannot write state %s' % kept in daemon.errors()))
        time.sleep(2 * WRITTEN)
        table.row('how many times', str(daemon.errors().count('cannot write')), right=daemon.errors().count('cannot write') == 1)
        table.row('the file still has the earlier state', 'yes', right=text_at(kept) == before)
        wanted = queue_of(client)
        os.remove(os.path.join(disk, 'filler'))
        time.sleep(WRITTEN)
        daemon.kill()
        daemon = started(program, folder, music, kept)
        table.row('when there is room again, it is written', 'yes', right=queue_of(daemon.client()) == wanted)
        daemon.kill()
    finally:
        subprocess.run(['umount', disk])
    return table.failed


def ran(program, folder, path, music, user=None):
    """The exit status and the errors of a start that should end by itself."""
    settings = os.path.join(folder, 'odd.toml')
    with open(settings, 'w') as file:
        file.write('music = "%s"\nlisten = "127.0.0.1:0"\nstate = "%s"\n' % (music, path))
    run = subprocess.run([program, 'serve', '--config', settings], capture_output=True, timeout=60, user=user)
    return run.returncode, run.stderr.decode()


def check_files(program, folder, music):
    """Files that are not a saved state, or not completely."""
    table = Table('\nState files with other content', 50, 60)
    path = os.path.join(folder, 'odd')
    with open(path, 'wb') as file:
        file.write(b'add "nothing"\n' * 7500000)
    wanted = 1, 'music_daemon: cannot read %s, which has more than 64 MiB: it is no state\n' % path
    found = ran(program, folder, path, music)
    table.row('100 MB', found[1].strip()[-60:], right=found == wanted)
    os.remove(path)
    os.mkdir(path)
    found = ran(program, folder, path, music)
    table.row('a folder', found[1].strip()[-60:], right=found == (1, 'music_daemon: cannot read %s\n' % path))
    os.rmdir(path)
    if os.getuid() == 0:
        with open(path, 'w') as file:
            file.write('setvol 3\n')
        os.chmod(path, 0o600)
        found = ran(program, folder, path, music, NOBODY)
        table.row('of another user', found[1].strip()[-60:], right=found == (1, 'music_daemon: cannot read %s\n' % path) and text_at(path) == 'setvol 3\n')
    else:
        table.row('of another user', 'left out, since it needs root')
    refused = path + '.refused'
    odd = random.Random(3).randbytes(100000)
    good = 'setvol 12\naddid "album 00/0001.wav" 0\n'
    lines = 'nonsense\nkill\nidle\naddid "nosuch.wav" 0\n'
    lists = 'command_list_begin\naddid "nosuch.wav" 0\nprio 9 0\nseek 0 3\ncommand_list_end\ncommand_list_begin\naddid "album 00/0002.wav" 0\nprio 4 0\ncommand_list_end\n'
    cases = (
        ('bytes that are not text, and then lines', odd + b'\n' + good.encode(), None, (('album 00/0001.wav', 0),)),
        ('refused lines: the others are run', (lines + good).encode(), 4, (('album 00/0001.wav', 0),)),
        ('refused lists: other songs stay as they are', (good + lists).encode(), 1, (('album 00/0002.wav', 4), ('album 00/0001.wav', 0))),
        ('a file that ends in the middle of a list', (good + 'command_list_begin\naddid "album 00/0002.wav" 0\nprio 4').encode(), 1, (('album 00/0002.wav', 0), ('album 00/0001.wav', 0))),
    )
    for name, content, count, queue in cases:
        with open(path, 'wb') as file:
            file.write(content)
        daemon = started(program, folder, music, path)
        client = daemon.client()
        found = client.value('status', 'volume'), queue_of(client)
        told = [line for line in daemon.errors().splitlines() if line.startswith('music_daemon: state: ')]
        with open(refused, 'rb') as file:
            right = file.read() == content
        right = right and found == ('12', queue) and (len(told) == 11 if count is None else len(told) == count)
        table.row(name, '%d reported, %s' % (len(told), found), right=right)
        daemon.end()
        os.remove(refused)
    table.row('state and shelf name the same file', 'refused', right=one_file(program, folder, music))
    return table.failed


def one_file(program, folder, music):
    settings, path = os.path.join(folder, 'one.toml'), os.path.join(folder, 'one')
    with open(settings, 'w') as file:
        file.write('music = "%s"\nlisten = "127.0.0.1:0"\nstate = "%s"\nshelf = "%s"\n' % (music, path, path))
    run = subprocess.run([program, 'serve', '--config', settings], capture_output=True, timeout=60)
    return (run.returncode, run.stderr) == (1, b'music_daemon: bad setting state\n')


def main():
    given = given_to('Checks the saved state across restarts.', times=(200, 'how many times the daemon is killed in each series'),
                     beside=(8, 'how many daemons run at a time'))
    program = program_of(given.program)
    with tempfile.TemporaryDirectory() as folder:
        os.chmod(folder, 0o755)
        music = os.path.join(folder, 'music')
        put_songs(music, 12, 441000)
        songs = [uri_of(number) for number in range(12)]
        failed = check_all_back(program, folder, music) + check_played(program, folder, music) + check_files(program, folder, music)
        failed += check_full(program, folder, music) + check_stops(program, folder, music, given.beside)
        failed += check_rooms(program, folder, music)
        failed += check_kills(program, folder, music, songs, given.times, given.beside)
        failed += check_kills(program, folder, music, songs, given.times, given.beside, rooms_killed_once, 'kill -9 while three clients edit in three partitions')
    return status_of(failed)


sys.exit(main())
