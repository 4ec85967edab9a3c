#!/usr/bin/env python3
"""Checks starts that fail: each prints one line on standard error and exits with status 1. Also checks the order in which faults are looked for.

    checks/serve/starts.py [PROGRAM]
"""
import os
import re
import socket
import sqlite3
import subprocess
import sys
import tempfile
import time

sys.dont_write_bytecode = True

from daemon import Daemon, Table, program_of, put_songs, status_of

GOOD = 'music = "%(music)s"\nlisten = "127.0.0.1:%(taken)d"\n'
OUTPUT = '[[output]]\nname = "%s"\npath = "/nosuch"\n'
# what is wrong, the settings (None: there is no file), and the line that is printed
CASES = [
    ('no settings file', None, 'cannot read %(settings)s'),
    ('settings that are not UTF-8', b'\xff\xfe', 'cannot read %(settings)s'),
    ('settings that are not TOML', 'music', 'bad setting '),
    ('an unknown key', GOOD + 'port = 1', 'bad setting port'),
    ('a bad key, reported before a missing one', 'rate = 1', 'bad setting rate'),
    ('no listen', 'music = "%(music)s"', 'bad setting listen'),
    ('no music', 'listen = ""', 'bad setting music'),
    ('history of 0', GOOD + 'history = 0', 'bad setting history'),
    ('an output without its path', GOOD + '[[output]]\nname = "a"', 'bad setting output'),
    ('two outputs of one name', GOOD + OUTPUT % 'a' + OUTPUT % 'b' + OUTPUT % 'a', 'bad setting output'),
    ('a line break in the name of an output', GOOD + OUTPUT % r'a\nb', 'bad setting output'),
    ('a line break in a key', GOOD + '"a\\nb" = 1', r'bad setting a\nb'),
    ('bad settings, reported before a bad shelf', GOOD + 'shelf = "/nosuch/shelf"\nring = 1', 'bad setting ring'),
    ('a shelf in a folder that does not exist', GOOD + 'shelf = "/nosuch/shelf"', 'cannot open shelf'),
    ('a shelf that is a folder', GOOD + 'shelf = "%(music)s"', 'cannot open shelf'),
    ('a shelf that is not a database', GOOD + 'shelf = "%(settings)s"', 'cannot open shelf'),
    ('a database with other tables', GOOD + 'shelf = "%(other)s"', 'cannot open shelf'),
    ('a shelf of another profile', GOOD + 'shelf = "%(ninth)s"', 'cannot open shelf'),
    ('a bad shelf, reported before a bad folder', 'music = "/nosuch"\nlisten = ""\nshelf = "/nosuch/shelf"', 'cannot open shelf'),
    ('a folder that does not exist', 'music = "/nosuch"\nlisten = ""', 'cannot read folder /nosuch'),
    ('a line break in a folder', 'music = "/no\\nsuch"\nlisten = ""', r'cannot read folder /no\nsuch'),
    ('a file in place of a folder', 'music = "%(settings)s"\nlisten = ""', 'cannot read folder %(settings)s'),
    ('no address', 'music = "%(music)s"\nlisten = "here"', 'cannot listen at here, which is no address and port such as 127.0.0.1:6600'),
    ('a line break in an address', 'music = "%(music)s"\nlisten = "a\\nb"', r'cannot listen at a\nb, which is no address and port such as 127.0.0.1:6600'),
    ('a name in place of an address', 'music = "%(music)s"\nlisten = "house:6600"', 'cannot listen at house:6600, which is no address and port such as 127.0.0.1:6600'),
    ('a state that is a folder', GOOD + 'state = "%(music)s"', 'cannot read %(music)s'),
    ('an address of another machine', 'music = "%(music)s"\nlisten = "192.0.2.1:6600"', 'cannot listen at 192.0.2.1:6600, which is no address of this machine'),
    ('a port that is taken', GOOD, 'cannot listen at 127.0.0.1:%(taken)d, where another program listens'),
]


def databases(folder):
    """Makes a database with some other table, and a shelf of profile 9."""
    other, ninth = os.path.join(folder, 'other.db'), os.path.join(folder, 'ninth.db')
    with sqlite3.connect(other) as store:
        store.execute('CREATE TABLE note (text TEXT)')
    with sqlite3.connect(ninth) as store:
        store.execute('CREATE TABLE profile (one INTEGER PRIMARY KEY CHECK (one = 1), number INTEGER NOT NULL)')
        store.execute('CREATE TABLE list (name TEXT NOT NULL PRIMARY KEY, uris TEXT NOT NULL)')
        store.execute('CREATE TABLE sticker (uri TEXT NOT NULL, name TEXT NOT NULL, value TEXT NOT NULL, PRIMARY KEY (uri, name))')
        store.execute('INSERT INTO profile VALUES (1, 9)')
    return {'other': other, 'ninth': ninth}


def check_faults(program, folder, music):
    table = Table('Starts that fail', 42, 8, 60)
    table.row('what is wrong', 'status', 'standard error')
    names = dict(databases(folder), music=music, settings=os.path.join(folder, 'faulty.toml'))
    with socket.socket() as door:
        door.bind(('127.0.0.1', 0))
        door.listen()
        names['taken'] = door.getsockname()[1]
        for case, text, wanted in CASES:
            if os.path.exists(names['settings']):
                os.remove(names['settings'])
            if text is not None:
                with open(names['settings'], 'wb') as file:
                    file.write(text if isinstance(text, bytes) else (text % names).encode() + b'\n')
            run = subprocess.run([program, 'serve', '--config', names['settings']], capture_output=True, stdin=subprocess.DEVNULL, timeout=60)
            line = ('music_daemon: ' + wanted % names + '\n').encode()
            shown = run.stderr.decode(errors='replace').replace(folder, '..').rstrip('\n')
            table.row(case, run.returncode, shown, right=run.returncode == 1 and run.stderr == line and not run.stdout)
    return table.failed


def check_one_start(program, folder, music):
    """A start with an output that never plays: its shelf and its summary; a second daemon on the same shelf; and the next start."""
    table = Table('\nA start and its end', 40, 60)
    shelf, path = os.path.join(folder, 'shelf.db'), os.path.join(folder, 'never written')
    daemon = Daemon(program, folder, music, [path], shelf=shelf)
    client = daemon.client()
    version = subprocess.run([program, '--version'], capture_output=True, text=True).stdout.split()[-1]
    start = 'music_daemon: version %s listens at 127.0.0.1:%d, output out0 at %s; 12 songs' % (version, daemon.port, path)
    told = daemon.errors()
    table.row('the line of the start', told.replace(folder, '..'), right=told == start)
    client.must('update')
    wait = time.monotonic() + 30
    while '\n' not in daemon.errors() and time.monotonic() < wait:
        time.sleep(0.02)
    told = daemon.errors().splitlines()[-1]
    table.row('the line of a scan', told, right=re.fullmatch(r'music_daemon: scan in \d+ ms: 12 songs', told) is not None)
    table.row('ping', ' '.join(client.ask('ping')))
    second = subprocess.run([program, 'serve', '--config', daemon.settings], capture_output=True, timeout=60)
    table.row('a second daemon on the same shelf', second.stderr.decode().strip(), right=(second.returncode, second.stderr) == (1, b'music_daemon: cannot open shelf\n'))
    client.must('add ""')
    client.must('save one')
    status, summary = daemon.end()
    table.row('the exit status, and the summary', '%d, %s' % (status, ' '.join(summary)), right=(status, summary) == (0, ['output 0: decoded 0 written 0 discarded 0 left 0']))
    told = daemon.errors().splitlines()
    table.row('the line of the end', told[-1], right=len(told) == 3 and told[-1] == 'music_daemon: end: decoded 0 written 0 discarded 0 left 0')
    table.row('an output that never played', 'no file' if not os.path.exists(path) else 'a file', right=not os.path.exists(path))
    alone = os.path.join(folder, 'copy.db')
    with open(shelf, 'rb') as file, open(alone, 'wb') as copy:
        copy.write(file.read())
    with sqlite3.connect(alone) as store:
        found = store.execute('SELECT name FROM list').fetchall()
    table.row("the shelf's file, read by sqlite3", found, right=found == [('one',)])
    daemon = Daemon(program, folder, music, shelf=shelf, kill=False)
    client = daemon.client()
    lists = client.must('listplaylists')
    table.row('the next start has its lists', ' '.join(lists), right=lists == ['playlist: one'])
    refused = client.ask('kill')[-1]
    table.row('`kill` where the settings do not allow it', refused, right=refused == 'ACK [4@0] {kill} no permission for "kill"')
    daemon.process.terminate()
    status = daemon.process.wait(30)
    table.row('a signal ends it', 'status %d' % status, right=status == -15)
    return table.failed


def main():
    program = program_of(sys.argv[1] if len(sys.argv) > 1 else None)
    with tempfile.TemporaryDirectory() as folder:
        music = os.path.join(folder, 'music')
        put_songs(music, 12, 100)
        failed = check_faults(program, folder, music) + check_one_start(program, folder, music)
    return status_of(failed)


if __name__ == '__main__':
    sys.exit(main())
