"""Measures how long calls of a playlist store (a shelf) in a database take, next to the same statements run by sqlite3, in memory and in a file.

Usage: bench.py PROGRAM     (shelf_bench, which bench.sh builds)

`command` is the program sqlite3, run on a script with the same statements, minus its time for the script without them. `library` is Python's
sqlite3 module, which compiles each statement once and binds its texts, as the shelf does. `times` is how many times as long as the library the
shelf takes. In a file all of them use a log, and sync at each commit (journal_mode WAL, synchronous FULL), as Rattle's library sqlite does; `no
syncs` is Python's module with synchronous OFF. Syncs are counted with strace, if it is installed.
"""
import os
import re
import shutil
import sqlite3
import subprocess
import sys
import tempfile
import time

URIS = ['folder/%d.wav' % number for number in range(16384)]
TEXT = ''.join(uri + '\n' for uri in URIS)
TABLES = [
    'CREATE TABLE profile (one INTEGER PRIMARY KEY CHECK (one = 1), number INTEGER NOT NULL)',
    'CREATE TABLE list (name TEXT NOT NULL PRIMARY KEY, uris TEXT NOT NULL)',
    'CREATE TABLE sticker (uri TEXT NOT NULL, name TEXT NOT NULL, value TEXT NOT NULL, PRIMARY KEY (uri, name))',
    'CREATE TABLE note (kind TEXT NOT NULL, target TEXT NOT NULL, name TEXT NOT NULL, value TEXT NOT NULL, PRIMARY KEY (kind, target, name))',
]
PUT = 'INSERT OR REPLACE INTO list (name, uris) VALUES (?1, ?2)'
LIST = 'SELECT uris FROM list WHERE name = ?1'
SET = 'INSERT OR REPLACE INTO note (kind, target, name, value) VALUES (?1, ?2, ?3, ?4)'
# how often each call is made in memory, and in a file, where each change waits for the disk; `query` is the query that `list` makes, without the
# shelf
CALLS = {'memory': {'put': 20, 'list': 100, 'query': 100, 'stickers': 10000}, 'file': {'put': 20, 'list': 100, 'query': 100, 'stickers': 500}}
# the target: how many times as long as Python's module the shelf may take in memory
WANTED = 3


def quoted(text):
    return "'" + text.replace("'", "''") + "'"


def statements(call, count):
    """The statements before the measured ones, and the measured ones, each with its values."""
    if call == 'put':
        return [], [(PUT, ('long', TEXT))] * count
    if call in ('list', 'query'):
        return [(PUT, ('long', TEXT))], [(LIST, ('long',))] * count
    return [], [(SET, ('song', uri, 'rating', '5')) for uri in URIS[:count]]


def script(pairs):
    lines = []
    for sql, values in pairs:
        for place, value in enumerate(values, 1):
            sql = sql.replace('?%d' % place, quoted(value))
        lines.append(sql + ';\n')
    return ''.join(lines)


def in_folder(place, measure):
    with tempfile.TemporaryDirectory() as folder:
        return measure(':memory:' if place == 'memory' else os.path.join(folder, 'shelf.db'))


def least(place, measure):
    return min(in_folder(place, measure) for _ in range(3))


def ours(program, call, count):
    def measure(path):
        place = 'memory' if path == ':memory:' else path
        done = subprocess.run([program, call, place, str(count)], check=True, capture_output=True, text=True, timeout=600)
        return int(done.stdout) / 1e9
    return measure


def run_script(path, text):
    began = time.perf_counter()
    subprocess.run(['sqlite3', '-batch', path], input=text, stdout=subprocess.DEVNULL, check=True, text=True, timeout=600)
    return time.perf_counter() - began


def command(call, count):
    before, measured = statements(call, count)
    front = ''.join(table + ';\n' for table in TABLES)

    def measure(path):
        files = '' if path == ':memory:' else 'PRAGMA journal_mode = WAL; PRAGMA synchronous = FULL;\n'
        other = path if path == ':memory:' else path + '.other'
        start = run_script(other, files + front + script(before))
        return run_script(path, files + front + script(before) + script(measured)) - start
    return measure


def library(call, count, synchronous):
    before, measured = statements(call, count)

    def measure(path):
        connection = sqlite3.connect(path, isolation_level=None)
        if path != ':memory:':
            connection.execute('PRAGMA journal_mode = WAL')
            connection.execute('PRAGMA synchronous = %s' % synchronous)
        for table in TABLES:
            connection.execute(table)
        for sql, values in before:
            connection.execute(sql, values)
        began = time.perf_counter()
        for sql, values in measured:
            connection.execute(sql, values).fetchall()
        took = time.perf_counter() - began
        connection.close()
        return took
    return measure


def syncs(program, call, count):
    """How often the calls sync a file."""
    def total(path, count):
        report = path + '.calls'
        subprocess.run(['strace', '-f', '-c', '-e', 'trace=fsync,fdatasync,sync_file_range', '-o', report, program, call, path, str(count)],
                       check=True, capture_output=True, timeout=600)
        lines = open(report, encoding='ascii').read().splitlines()
        return sum(int(line.split()[3]) for line in lines if re.search(r' (fsync|fdatasync|sync_file_range)$', line))
    return in_folder('file', lambda path: total(path, count)) - in_folder('file', lambda path: total(path, 0))


def main():
    program = sys.argv[1]
    print('%-8s %-10s %7s %12s %12s %12s %8s  %s' % ('', 'call', 'calls', 'us a call', 'command', 'library', 'times', 'target'))
    for place, calls in CALLS.items():
        for call, count in calls.items():
            own = least(place, ours(program, call, count)) / count * 1e6
            by_command = least(place, command(call, count)) / count * 1e6
            by_library = least(place, library(call, count, 'FULL')) / count * 1e6
            print('%-8s %-10s %7d %12.1f %12.1f %12.1f %8.1f  %s' %
                  (place, call, count, own, by_command, by_library, own / by_library,
                   'at most %d times' % WANTED if place == 'memory' else 'depends on the disk'))
    print()
    for call, count in (('put', 20), ('stickers', 500)):
        synced = least('file', library(call, count, 'FULL')) / count * 1e6
        unsynced = least('file', library(call, count, 'OFF')) / count * 1e6
        counted = '%.2f' % (syncs(program, call, count) / count) if shutil.which('strace') else '? (no strace)'
        own = least('file', ours(program, call, count)) / count * 1e6
        memory = least('memory', ours(program, call, count)) / count * 1e6
        print('%-10s syncs a call %s; us a call: in a file %.1f, in memory %.1f; library with syncs %.1f, no syncs %.1f' %
              (call, counted, own, memory, synced, unsynced))


main()
