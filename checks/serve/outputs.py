#!/usr/bin/env python3
"""Checks what happens to outputs whose path or reader fails, and that clients are served meanwhile.

    checks/serve/outputs.py [PROGRAM]
"""
import os
import subprocess
import sys
import time

sys.dont_write_bytecode = True

from daemon import Daemon, Pacer, Table, check_each, program_of

RATE = 44100
READ = 100_000  # how many bytes a reader reads before it leaves


def enabled(client):
    return [line[15:] for line in client.must('outputs') if line.startswith('outputenabled: ')]


def becomes(asked, wanted, seconds=10):
    """Whether a value becomes the expected one in time; and what it was the last time."""
    end = time.monotonic() + seconds
    while time.monotonic() < end:
        found = asked()
        if found == wanted:
            return True, found
        time.sleep(0.05)
    return False, found


def slowest_ping(client, count=200):
    slowest = 0.0
    for _ in range(count):
        start = time.monotonic()
        client.must('ping')
        slowest = max(slowest, time.monotonic() - start)
    return slowest


def playing(program, folder, music, outputs):
    daemon = Daemon(program, folder, music, outputs)
    client = daemon.client()
    for line in ['add ""', 'repeat 1', 'play']:
        client.must(line)
    return daemon, client


def check_no_path(table, program, folder, music):
    """A path that cannot be opened: its output is switched off and cannot be switched on again, and the other one goes on."""
    daemon, client = playing(program, folder, music, [os.path.join(folder, 'nosuch', 'file'), '/dev/null'])
    right, found = becomes(lambda: enabled(client), ['0', '1'])
    table.row('a path in a folder that does not exist', 'enabled: %s' % ' '.join(found), right=right)
    refused = client.ask('enableoutput 0')[-1]
    table.row('', refused, right=refused == 'ACK [52@0] {enableoutput} output has failed')
    failed = [line for line in daemon.errors().splitlines() if 'cannot write' in line]
    line = 'music_daemon: output 0: cannot write %s: ' % os.path.join(folder, 'nosuch', 'file')
    right = len(failed) == 1 and failed[0].startswith(line) and failed[0].endswith('; off until the next start')
    table.row('', ' '.join(failed).replace(folder, '..'), right=right)
    client.must('stop')
    status, summary = daemon.end()
    table.row('', summary[0], right=status == 0 and 'unsettled' not in summary[0] and ' written 0 ' in summary[0])


def check_reader_goes(table, program, folder, music):
    """A FIFO whose reader leaves: its output is switched off, and the other, which is read at the pace of a sound card, goes on playing."""
    gone, pacer = os.path.join(folder, 'gone'), Pacer(os.path.join(folder, 'paced'))
    os.mkfifo(gone)
    reader = subprocess.Popen([sys.executable, '-c', 'import sys; open(sys.argv[1], "rb").read(%d)' % READ, gone])
    daemon, client = playing(program, folder, music, [pacer.path, gone])
    reader.wait()
    right, found = becomes(lambda: enabled(client), ['1', '0'])
    table.row('a reader that leaves', 'enabled: %s' % ' '.join(found), right=right)
    before = float(client.value('status', 'elapsed'))
    time.sleep(1)
    after = float(client.value('status', 'elapsed'))
    table.row('', 'the other goes on: elapsed %.3f, a second later %.3f' % (before, after), right=after != before)
    client.must('stop')
    time.sleep(2)
    status, summary = daemon.end()
    pacer.kill()
    table.row('', summary[1], right=status == 0 and 'unsettled' not in ''.join(summary))


def check_no_reader(table, program, folder, music):
    """A FIFO without a reader: nothing plays, clients are served, and everything goes on once there is a reader."""
    alone = os.path.join(folder, 'alone')
    os.mkfifo(alone)
    daemon, client = playing(program, folder, music, [alone, '/dev/null'])
    time.sleep(0.5)
    before = client.value('status', 'elapsed')
    slowest, used = slowest_ping(client), daemon.seconds()
    time.sleep(1)
    used = daemon.seconds() - used
    after = client.value('status', 'elapsed')
    table.row('a FIFO without a reader', 'elapsed %s, a second later %s; slowest ping %.1f ms; %.0f ms of processor time' % (before, after, slowest * 1e3, used * 1e3),
              right=before == after and slowest < 0.5 and used < 0.3)
    reader = subprocess.Popen(['cat', alone], stdout=subprocess.DEVNULL)
    right, _ = becomes(lambda: client.value('status', 'elapsed') != after, True)
    table.row('', 'a reader came: it plays' if right else 'a reader came: it does not play', right=right)
    client.must('stop')
    status, summary = daemon.end()
    reader.wait(20)
    table.row('', '%s; %s' % tuple(summary), right=status == 0 and 'unsettled' not in ''.join(summary))


def check_slow_reader(table, program, folder, music):
    """A reader that stops reading: clients are served, and the end of the daemon waits for the reader until it is gone."""
    slow = os.path.join(folder, 'slow')
    os.mkfifo(slow)
    reader = subprocess.Popen([sys.executable, '-c', 'import sys, time; file = open(sys.argv[1], "rb", 0); file.read(4096); time.sleep(1000)', slow])
    daemon, client = playing(program, folder, music, [slow])
    time.sleep(1)
    slowest = slowest_ping(client)
    table.row('a reader that stops reading', 'slowest ping %.1f ms' % (slowest * 1e3), right=slowest < 0.5)
    client.send('kill')
    time.sleep(0.5)
    waits = daemon.process.poll() is None
    reader.kill()
    reader.wait()
    status = daemon.process.wait(20)
    table.row('', 'kill waits for the reader: %s; then status %d, %s' % ('yes' if waits else 'no', status, daemon.output().strip()),
              right=status == 0 and 'unsettled' not in daemon.output())


def main():
    program = program_of(sys.argv[1] if len(sys.argv) > 1 else None)
    table = Table('Outputs that fail', 38, 110)
    return check_each(program, table, (check_no_path, check_reader_goes, check_no_reader, check_slow_reader), RATE)


if __name__ == '__main__':
    sys.exit(main())
