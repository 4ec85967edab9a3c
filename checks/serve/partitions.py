#!/usr/bin/env python3
"""Checks partitions: 16 of them with 64 clients, what a partition costs, and rooms that play independently.

    checks/serve/partitions.py [PROGRAM] [--seconds N]

There are: for N seconds (20), 63 clients in 16 partitions, which edit, ask and wait there, each partition with its own queue; how many instructions
some lines take with one partition and with 16 (with Debian's package valgrind), and how much memory an empty partition takes; two rooms, in one of
which the reader stalls; and an output that is moved back and forth while both its partitions play. The exit status is 1 if an answer is wrong, if a
client is told of a change in another partition, if a room falls silent because of another room's reader, or if the frame counts of an output do not
balance.
"""
import os
import random
import re
import subprocess
import sys
import time

sys.dont_write_bytecode = True

from daemon import Daemon, Pacer, Table, check_each, given_to, program_of
from load import Asker, run_askers

MOST = 16           # how many partitions there are
DEAREST = 1.5       # how many times as much a line may cost with 16 partitions as with one
TIMES = 200         # how many times a line is run
# lines of a script, and how many events its history's window holds (0: the default); with 1 there is a fold for each event
COSTS = [
    ('`ping`', ['1 ping'], 0),
    ('`status`', ['1 status'], 0),
    ('`outputs`', ['1 outputs'], 0),
    ('`addid`', ['1 addid a.wav'], 0),
    ('`setvol`', ['1 setvol 30', '1 setvol 40'], 0),
    ('a change reported to a client', ['2 idle mixer', '1 setvol 30', '2 idle mixer', '1 setvol 40'], 0),
    ('a `ping` and a fold', ['1 ping'], 1),
]
EMPTY = 20          # how many kB an empty partition may take
SLOWEST = 1.0       # how many seconds an answer may take
MOVES = 40          # how many times an output is moved
READER_STARTS = 20  # how many seconds the reader of a room may take to start
BOOKS = re.compile(r'output (\d+): decoded (\d+) written (\d+) discarded (\d+) left (\d+)')


class Tenant(Asker):
    """A client in a partition. A silent one waits for something that nobody in its partition changes; before that it gets the notice about its own
    move to the partition."""

    def __init__(self, port, number, kind, place):
        super().__init__(port, number, kind)
        self.place = place
        if place:
            self.client.socket.setblocking(True)
            if self.client.ask('partition p%d' % place) != ['OK']:
                raise AssertionError('no partition p%d' % place)
            if self.client.ask('idle options') != ['changed: options', 'OK']:
                raise AssertionError('after a move to another partition, idle does not report everything')
            self.client.socket.setblocking(False)

    def request(self):
        if self.kind == 'silent':
            return 'idle options'
        return super().request()


def new_partitions(daemon, count):
    client = daemon.client()
    for number in range(1, count):
        client.must('newpartition p%d' % number)
    return client


def check_load(table, program, folder, music, seconds):
    """16 partitions with four clients each, one of which waits for something that nobody in its partition changes; eight partitions play."""
    pacers = [Pacer(os.path.join(folder, 'fifo%d' % number)) for number in range(8)]
    daemon = Daemon(program, folder, music, [pacer.path for pacer in pacers])
    first = new_partitions(daemon, MOST)
    more = first.ask('newpartition one_more')[-1]
    table.row('the 17th partition', more, right=more == 'ACK [52@0] {newpartition} too many partitions')
    for number in range(8):
        mover = daemon.client()
        mover.must('partition p%d' % (2 * number + 1))
        mover.must('moveoutput out%d' % number)
        for request in ('add ""', 'repeat 1', 'play'):
            mover.must(request)
        mover.close()
    kinds = ['edit', 'ping', 'edit', 'silent']
    tenants = [Tenant(daemon.port, number, kinds[number % 4], number // 4) for number in range(63)]
    closed = run_askers(tenants, seconds)
    for kind in ('ping', 'edit'):
        of_kind = [tenant for tenant in tenants if tenant.kind == kind]
        slowest, wrong = max(tenant.slowest for tenant in of_kind), sum(tenant.wrong for tenant in of_kind)
        table.row('%d clients: %s' % (len(of_kind), kind), '%.0f a second, slowest %.1f ms, %d wrong' % (
            sum(tenant.count for tenant in of_kind) / seconds, 1000 * slowest, wrong), right=not wrong and slowest < SLOWEST)
    heard = sum(tenant.notices for tenant in tenants if tenant.kind == 'silent')
    table.row('clients that wait for modes', '%d changes reported' % heard, right=heard == 0)
    table.row('clients that were disconnected', closed, right=closed == 0)
    names = {line for line in first.must('listpartitions')}
    table.row('listpartitions', '%d names' % len(names), right=len(names) == MOST)
    for tenant in tenants:
        tenant.client.close()
    balances(table, daemon, pacers, first)


def balances(table, daemon, pacers=(), client=None):
    """Ends the daemon, and checks that the frame counts of each output balance. If a client is given, it is used, since a new one might find no free
    slot."""
    client = client or daemon.client()
    for line in client.must('listpartitions'):
        client.must('partition %s' % line.partition(': ')[2])
        client.must('stop')
    client.close()
    status, summary = daemon.end()
    for pacer in pacers:
        pacer.kill()
    books = [[int(word) for word in BOOKS.match(line).groups()] for line in summary if BOOKS.match(line)]
    right = status == 0 and books and all(decoded == written + discarded + left for _, decoded, written, discarded, left in books)
    table.row('frame counts at the end', '%d outputs, %d frames decoded' % (len(books), sum(book[1] for book in books)), right=right)


def instructions(program, folder, lines, partitions, length, history):
    """How many instructions some lines of a script take, counted by callgrind, with so many partitions; the first one has so many entries."""
    before = ['! song a.wav 8000'] + ['! limit history %d' % history] * bool(history)
    before += ['1 newpartition p%d' % number for number in range(1, partitions)] + ['1 add a.wav'] * length
    counted = []
    for times in (TIMES, 2 * TIMES):
        out = os.path.join(folder, 'counted')
        subprocess.run(['valgrind', '--tool=callgrind', '--callgrind-out-file=%s' % out, program, 'script'], check=True,
                       input='\n'.join(before + lines * times + ['']).encode(), stdout=subprocess.DEVNULL, stderr=subprocess.DEVNULL)
        with open(out, encoding='utf-8') as told:
            counted.append(int(re.search(r'^(?:summary|totals): (\d+)', told.read(), re.M)[1]))
    return (counted[1] - counted[0]) / TIMES


def check_cost(table, program, folder, music):
    """What lines cost with one partition and with 16, in instructions; and how much memory an empty partition takes."""
    for name, lines, history in COSTS:
        one = instructions(program, folder, lines, 1, 0, history)
        of_many = instructions(program, folder, lines, MOST, 0, history)
        # A fold copies every partition, so with 16 it may cost 16 times as much.
        most = (MOST if history else DEAREST) * one
        table.row(name, '%.0f instructions, with 16 partitions %.0f' % (one, of_many), right=of_many <= most)
    daemon = Daemon(program, folder, music, ['/dev/null'])
    client = daemon.client()
    for _ in range(1000):
        client.must('status')
    before = daemon.memory()
    for number in range(1, MOST):
        client.must('newpartition p%d' % number)
    each = 1000 * (daemon.memory() - before) / (MOST - 1)
    client.close()
    table.row('memory of an empty partition', '%.1f kB' % each, right=each <= EMPTY)
    balances(table, daemon)


def check_rooms(table, program, folder, music):
    """The reader in one room stalls: the other room goes on playing."""
    still, pacer = os.path.join(folder, 'still'), Pacer(os.path.join(folder, 'paced'))
    os.mkfifo(still)
    reader = subprocess.Popen([sys.executable, '-c', 'import sys, time; file = open(sys.argv[1], "rb", 0); file.read(4096); time.sleep(1000)', still])
    daemon = Daemon(program, folder, music, [pacer.path, still])
    kitchen, upstairs = daemon.client(), new_partitions(daemon, 2)
    upstairs.must('partition p1')
    upstairs.must('moveoutput out1')
    for client in (kitchen, upstairs):
        client.must('add ""')
        client.must('play')
    # Until its reader has started, the kitchen plays no more than its ring and its FIFO hold.
    end = time.monotonic() + READER_STARTS
    while float(kitchen.value('status', 'elapsed')) < 1 and time.monotonic() < end:
        time.sleep(0.1)
    before = float(kitchen.value('status', 'elapsed')), float(upstairs.value('status', 'elapsed'))
    time.sleep(2)
    after = float(kitchen.value('status', 'elapsed')), float(upstairs.value('status', 'elapsed'))
    table.row('a reader that stalls', 'elapsed in its room %.3f, two seconds later %.3f' % (before[1], after[1]), right=before[1] == after[1])
    table.row('', 'elapsed in the other room %.3f, then %.3f' % (before[0], after[0]), right=after[0] - before[0] > 1)
    reader.kill()
    reader.wait()
    balances(table, daemon, [pacer])


def check_moves(table, program, folder, music):
    """An output is moved back and forth while both partitions play."""
    pacers = [Pacer(os.path.join(folder, 'room%d' % number)) for number in range(2)]
    daemon = Daemon(program, folder, music, [pacer.path for pacer in pacers])
    one, two = daemon.client(), new_partitions(daemon, 2)
    two.must('partition p1')
    for client in (one, two):
        client.must('add ""')
        client.must('repeat 1')
        client.must('play')
    draw = random.Random(1)
    for number in range(MOVES):
        to, other = (two, one) if number % 2 == 0 else (one, two)
        to.must('moveoutput out1')
        names = [line for line in to.must('outputs') if line.startswith('outputname: out1')]
        gone = [line for line in other.must('outputs') if line.startswith('outputname: out1')]
        if not names or gone:
            table.row('move %d' % number, 'the output is in %s' % ('both' if names else 'neither'), right=False)
        time.sleep(draw.random() / 10)
    table.row('%d moves of an output' % MOVES, 'elapsed %s and %s' % (one.value('status', 'elapsed'), two.value('status', 'elapsed')))
    balances(table, daemon, pacers)


def main():
    given = given_to('Checks partitions.', seconds=(20.0, 'how long the clients send requests'))
    program, table = program_of(given.program), Table('Partitions', 34, 90)
    checks = [lambda *them: check_load(*them, given.seconds), check_cost, check_rooms, check_moves]
    return check_each(program, table, checks, 44100, songs=20)


if __name__ == '__main__':
    sys.exit(main())
