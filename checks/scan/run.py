#!/usr/bin/env python3
"""Scans folders with contents that a test in the gate cannot make, and measures how long a scan takes.

    run.py [ROOT]     (ROOT is the top folder of the repository; by default the one that this script is in)

It tries: names that are not UTF-8; a FIFO, a socket and a device that are named like songs; files and folders without permission to read them
(as another user, if this one is root); each allocation refused in turn; each read failing in turn. It counts the system calls for each file, if
strace is installed, and measures a scan of 5,000 files of 100 kB, compared with a C program that reads the heads of the files, and with find.
The program is built in a temporary copy of the crates, together with what is proved already. The exit status is 1 if a scan is wrong; times are
only printed.
"""
import os
import shutil
import socket
import struct
import subprocess
import sys
import tempfile
import time

sys.dont_write_bytecode = True

HERE = os.path.dirname(os.path.abspath(__file__))
sys.path.insert(0, os.path.dirname(HERE))

from crates import copy_below
from program import build_library, counts_in

NOBODY = 65534
FILES, SIZE = 5000, 100000


def wave(size, rate=8000):
    """A WAVE file with one channel of 16 bits, and so many bytes of data."""
    form = struct.pack('<HHIIHH', 1, 1, rate, 2 * rate, 2, 16)
    return b'RIFF' + struct.pack('<I', 36 + size) + b'WAVEfmt ' + struct.pack('<I', 16) + form + b'data' + struct.pack('<I', size) + bytes(size)


def build(root, work):
    show = copy_below(root, ['library_scan', 'song_db'], os.path.join(HERE, 'scan_show'), work)
    log = subprocess.run(['rt', 'run'], cwd=show, capture_output=True, text=True)
    program = os.path.join(show, 'out', 'scan_show')
    if not os.path.exists(program):
        sys.exit(log.stdout + log.stderr)
    subprocess.run(['gcc', '-O2', '-o', os.path.join(work, 'heads'), os.path.join(HERE, 'heads.c')], check=True)
    return program, build_library(work)


def put(folder, name, data):
    path = os.path.join(folder, name)
    os.makedirs(os.path.dirname(path), exist_ok=True)
    with open(path, 'wb') as file:
        file.write(data)
    return path


def scanned(program, folder, environment=None, user=None):
    demote = (lambda: (os.setgid(user), os.setuid(user))) if user else None
    done = subprocess.run([program, folder], capture_output=True, timeout=20, env=environment, preexec_fn=demote)
    return done.returncode, done.stdout.decode()


def compare(what, told, wanted):
    if told == (0, wanted):
        print('right: ' + what)
        return 0
    print('WRONG: %s: %r, expected %r' % (what, told, wanted))
    return 1


def odd_names(program, folder):
    top = os.fsencode(folder)
    put(top, b'a.wav', wave(2))
    put(top, b'\xff.wav', wave(2))
    put(top, b'\xfe/x.wav', wave(2))
    put(top, b'\xed\xa0\x80.wav', wave(2))
    put(top, b'\x1f.wav', wave(2))
    put(top, b'\x7f.wav', wave(4))
    put(top, 'z\u00fc.wav'.encode(), wave(6))
    os.mkfifo(os.path.join(folder, 'fifo.wav'))
    os.symlink('fifo.wav', os.path.join(folder, 'link.wav'))
    os.symlink('/dev/zero', os.path.join(folder, 'zero.wav'))
    listener = socket.socket(socket.AF_UNIX)
    listener.bind(os.path.join(folder, 'socket.wav'))
    wrong = compare('names that are not UTF-8, FIFO, socket, device', scanned(program, folder), 'a.wav=1\nz\u00fc.wav=3\n\x7f.wav=2\n')
    listener.close()
    return wrong


def permissions(program, folder):
    put(folder, 'a.wav', wave(2))
    os.chmod(put(folder, 'closed.wav', wave(2)), 0)
    put(folder, 'shut/x.wav', wave(2))
    put(folder, 'names/x.wav', wave(2))
    put(folder, 'names/y.txt', b'')
    os.chmod(folder, 0o755)
    os.chmod(os.path.join(folder, 'shut'), 0)
    os.chmod(os.path.join(folder, 'names'), 0o744)
    user = NOBODY if os.getuid() == 0 else None
    if user is None:
        os.chmod(os.path.join(folder, 'names'), 0o444)
    wrong = compare('files and folders without permission', scanned(program, folder, user=user), 'a.wav=1\nclosed.wav:ReadFault\nnames/x.wav:ReadFault\n')
    wrong += compare('a folder that cannot be listed', scanned(program, os.path.join(folder, 'shut'), user=user), 'NoFolder\n')
    for name in ('shut', 'names'):
        os.chmod(os.path.join(folder, name), 0o755)
    return wrong


def faults(program, folder, library):
    for name in ('a.wav', 'b/c.wav', 'b/d/e.wav', 'no.wav'):
        put(folder, name, wave(2) if name != 'no.wav' else b'no')
    whole = 'a.wav=1\nb/c.wav=1\nb/d/e.wav=1\nno.wav:NotRiff\n'
    report = os.path.join(os.path.dirname(folder), 'report')
    wrong, runs = 0, 0
    for kind, counted in (('ALLOCATION', 'allocations'), ('READ', 'reads')):
        number = 0
        while True:
            number += 1
            environment = {'LD_PRELOAD': library, 'FAULTY_' + kind: str(number), 'FAULTY_REPORT': report}
            status, text = scanned(program, folder, environment)
            counts = counts_in(report)
            if counts and counts[counted] < number:
                break
            runs += 1
            if kind == 'ALLOCATION':
                right = status == 1 or (status, text) in ((0, whole), (0, 'NoMemory\n'))
            else:
                songs = [line.split('=')[0].split(':')[0] for line in text.splitlines()]
                right = status == 0 and sorted(songs) == ['a.wav', 'b/c.wav', 'b/d/e.wav', 'no.wav'] and text.count('ReadFault') == 1
            if not right:
                wrong += 1
                print('WRONG at %s %d: status %d, %r' % (kind, number, status, text))
    print('%d runs with one fault, %d wrong' % (runs, wrong))
    return wrong


def calls(program, folder):
    """How many system calls each file takes, apart from open and close."""
    if not shutil.which('strace'):
        print('strace is not installed: system calls were not counted')
        return 0
    for number in range(1000):
        put(folder, '%03d.wav' % number, wave(50000))
    trace = os.path.join(os.path.dirname(folder), 'trace')
    subprocess.run(['strace', '-f', '-o', trace, program, folder], capture_output=True, check=True)
    names = [line.split(None, 1)[1].split('(')[0] for line in open(trace, errors='replace')]
    each = sum(name in ('statx', 'newfstatat', 'stat', 'lseek', 'read', 'pread64', 'fstat') for name in names) / 1000
    print('system calls for each file, apart from open and close: %.2f' % each)
    return 0 if each <= 4.1 else 1


def timed(words):
    best = None
    for _ in range(5):
        start = time.perf_counter()
        subprocess.run(words, stdout=subprocess.DEVNULL, check=True)
        best = min(best or 1e9, time.perf_counter() - start)
    return best * 1000


def benchmark(program, heads, folder):
    for number in range(FILES):
        put(folder, '%02d/%04d.wav' % (number % 50, number), wave(SIZE))
    print('%d files of %d kB, best of five:' % (FILES, SIZE // 1000))
    for name, words in (('scan', [program, folder]), ('heads in C', [heads, folder]), ('find | wc', ['sh', '-c', 'find "$0" -name "*.wav" | wc -l', folder])):
        print('  %-12s %8.1f ms' % (name, timed(words)))


def main(root):
    with tempfile.TemporaryDirectory() as work:
        os.chmod(work, 0o755)
        program, library = build(root, work)
        folders = [os.path.join(work, name) for name in ('names', 'closed', 'faults', 'calls', 'many')]
        for folder in folders:
            os.mkdir(folder)
        for path in (os.path.join(work, 'crates'), os.path.dirname(os.path.dirname(program)), os.path.dirname(program), program):
            os.chmod(path, 0o755)
        wrong = odd_names(program, folders[0])
        wrong += permissions(program, folders[1])
        wrong += faults(program, folders[2], library)
        wrong += calls(program, folders[3])
        benchmark(program, os.path.join(work, 'heads'), folders[4])
    return 1 if wrong else 0


if __name__ == '__main__':
    sys.exit(main(os.path.abspath(sys.argv[1]) if len(sys.argv) > 1 else os.path.dirname(os.path.dirname(HERE))))
