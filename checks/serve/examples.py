#!/usr/bin/env python3
"""Runs the examples of README.md and examples/README.md exactly as they are there, except for ports and paths.

    checks/serve/examples.py [PROGRAM]

They are: three rooms, with snapserver, aplay and a file; two queues in two rooms; and ratings with stickers. It needs Debian's packages mpc and
alsa-utils; if snapserver or aplay is not installed, another reader takes its place. The exit status is 1 if a room did not play what it should,
or if an answer is wrong.
"""
import os
import re
import shutil
import subprocess
import sys
import tempfile
import time

sys.dont_write_bytecode = True

from daemon import Pacer, Process, ROOT, Table, arguments_of, free_port, program_of

ALL = 132296        # how many frames all files of examples/tunes have
LONGEST = 30        # how many seconds a room may take to play them
LEFT = 1.5          # how many seconds a reader gets to read what is left in a ring buffer and a FIFO
BOOKS = re.compile(r'output (\d+): decoded (\d+) written (\d+) discarded (\d+) left (\d+)')


class Example(Process):
    """The daemon with the settings of an example, whose paths in /tmp are replaced by paths in another folder."""

    def __init__(self, program, folder, name):
        port = free_port()
        with open(os.path.join(ROOT, 'examples', name), encoding='utf-8') as file:
            text = file.read()
        settings = os.path.join(folder, name)
        with open(settings, 'w', encoding='utf-8') as file:
            file.write(moved(text, folder, port).replace('"examples/', '"%s/examples/' % ROOT))
        super().__init__([program, 'serve', '--config', settings], port, folder)

    def end(self):
        """Lets the readers read what is left, and ends the daemon with `kill`: how many frames were written to each output, and whether the
        frame counts balance."""
        time.sleep(LEFT)
        client = self.client()
        client.send('kill')
        client.close()
        status = self.process.wait(LONGEST)
        books = [[int(word) for word in BOOKS.match(line).groups()] for line in self.output().splitlines() if BOOKS.match(line)]
        return [book[2] for book in books], status == 0 and all(book[1] == sum(book[2:]) for book in books)


def moved(text, folder, port):
    return text.replace('/tmp/', folder + '/').replace('6600', str(port))


def block_under(path, heading):
    """The first block of commands under a heading of a document."""
    with open(os.path.join(ROOT, path), encoding='utf-8') as file:
        text = file.read().split('## %s\n' % heading)[1]
    return '\n'.join(line[4:] for line in re.search(r'(?m)(?:^    .*\n)+', text)[0].splitlines())


def run_block(lines, folder, port):
    """Runs commands in bash, with mpc connecting to this daemon."""
    done = subprocess.run(['bash', '-c', moved(lines, folder, port)], env={**os.environ, 'MPD_PORT': str(port), 'MPD_HOST': '127.0.0.1'},
                          stdout=subprocess.PIPE, stderr=subprocess.STDOUT, text=True, timeout=60)
    return done.returncode, done.stdout


def wait_for(client, state):
    end = time.monotonic() + LONGEST
    while client.value('status', 'state') != state and time.monotonic() < end:
        time.sleep(0.1)


def check_three(table, program, folder):
    lines = block_under('examples/README.md', 'Rooms').replace('aplay -q', 'aplay -q -D null').splitlines()
    if shutil.which('snapserver') is None:
        lines = [re.sub(r'^snapserver .*', 'cat /tmp/living.fifo > /dev/null &', line) for line in lines]
    if shutil.which('aplay') is None:
        lines = [re.sub(r'^aplay .* (/tmp/\S+) &', r'cat \1 > /dev/null &', line) for line in lines]
    readers = subprocess.Popen(['bash', '-c', moved('\n'.join(lines[:-1] + ['wait']), folder, 0)], stdout=subprocess.DEVNULL, stderr=subprocess.DEVNULL, start_new_session=True)
    time.sleep(1)
    daemon = Example(program, folder, 'three_rooms.toml')
    client = daemon.client()
    client.must('add ""')
    client.must('play')
    wait_for(client, 'stop')
    written, right = daemon.end()
    os.killpg(readers.pid, 15)
    readers.wait()
    size = os.path.getsize(os.path.join(folder, 'three_rooms.pcm'))
    table.row('three rooms', 'frames %s, %d bytes in the file' % (written, size), right=right and written == [ALL] * 3 and size == 4 * ALL)


def check_two(table, program, folder):
    pacers = [Pacer(os.path.join(folder, name + '.fifo')) for name in ('kitchen', 'bedroom')]
    daemon = Example(program, folder, 'rooms.toml')
    status, told = run_block(block_under('README.md', 'Two rooms, two queues'), folder, daemon.port)
    client = daemon.client()
    for partition in ('default', 'upstairs'):
        client.must('partition ' + partition)
        wait_for(client, 'stop')
    written, right = daemon.end()
    for pacer in pacers:
        pacer.kill()
    table.row('two rooms, two queues', 'frames %s' % written, right=status == 0 and right and written == [ALL] * 2)
    if status:
        print(told)


def check_ratings(table, program, folder):
    pacers = [Pacer(os.path.join(folder, 'music_daemon.fifo'))]
    daemon = Example(program, folder, 'walk.toml')
    status, told = run_block(block_under('examples/README.md', 'Ratings'), folder, daemon.port)
    queue = [line for line in daemon.client().must('playlistinfo') if line.startswith('file: ')]
    right = daemon.end()[1]
    for pacer in pacers:
        pacer.kill()
    table.row('ratings by stickers', 'the queue: %s' % ', '.join(queue), right=status == 0 and right and queue == ['file: bells.wav'])
    if status:
        print(told)


def main():
    parser = arguments_of('Runs the examples of README.md and examples/README.md.')
    program, table = program_of(parser.parse_args().program), Table('Examples', 34, 60)
    for check in (check_three, check_two, check_ratings):
        with tempfile.TemporaryDirectory() as folder:
            check(table, program, folder)
    return table.status()


if __name__ == '__main__':
    sys.exit(main())
