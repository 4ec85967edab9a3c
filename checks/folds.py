"""Folds of the history (checkpoints): time and memory of long runs, and the longest wait for an answer, next to the targets. It fails
if a run ends badly, or if `! window` shows other counts than it should; times and memory are only printed."""
import os
import re
import statistics
import subprocess
import sys
import threading
import time

from benchmark import ADD, ENTRIES, PING, SONG, row, shown

MOST = 4096         # how many events a window holds, if a script sets no limit
PINGS, MIXED = 10_000_000, 1_000_000  # how many events the long runs have
FEW, RUNS = 3500, 31  # about how many events a run has that is too short for a fold, and how many such runs are made
WINDOWS, BLOCK = 5, 1 << 20  # for how many windows each wait is timed, and about how many bytes are written at once
WINDOW = re.compile(rb'(?:^|\n)! window (\d+) (\d+)\n\Z')
START, STARTED = SONG + b'! song b.wav 16000 Artist=Ann\n' + PING + b'2 ping\n', 4
# Events of many kinds, which leave everything as it was before them, so that the answers stay about as long.
CYCLE = (ADD + b'1 add b.wav\n1 setvol 40\n1 setvol 60\n2 idle mixer\n1 repeat 1\n1 repeat 0\n2 noidle\n1 play 0\n! want\n! turn 0 9 1\n'
         b'1 status\n1 playlistinfo\n1 move 0 1\n1 prio 7 0\n1 stop\n1 playlistadd x a.wav\n1 listplaylist x\n1 playlistdelete x 0\n'
         b'1 sticker set song a.wav r 5\n1 sticker get song a.wav r\n1 find artist Ann\n1 nosuch\n2 subscribe c\n1 sendmessage c hi\n'
         b'2 readmessages\n2 unsubscribe c\n1 command_list_begin\n1 ping\n1 currentsong\n1 command_list_end\n1 clear\n')


class Child:
    """A run of the program, which gets its lines through a pipe."""
    def __init__(self, path):
        self.process = subprocess.Popen([path, 'script'], stdin=subprocess.PIPE, stdout=subprocess.PIPE)

    def feed(self, *blocks):
        for lines in blocks:
            self.process.stdin.write(lines)
        self.process.stdin.flush()

    def heard(self):
        """Waits until it has printed something, and returns that."""
        return os.read(self.process.stdout.fileno(), BLOCK) or sys.exit('folds: the program ended with status %d' % self.process.wait())

    def window(self, *blocks):
        """Runs these lines, and returns how many events the window then has, and how many there were in all. Another thread writes
        the lines, while this one reads the answers."""
        feeder = threading.Thread(target=self.feed, args=(*blocks, b'! window\n'))
        feeder.start()
        tail, found = b'', None
        while not found:
            tail = (tail + self.heard())[-80:]
            found = WINDOW.search(tail)
        feeder.join()
        return tuple(map(int, found.groups()))

    def timed(self, *blocks):
        """Runs these lines, and returns the seconds that it took (elapsed, and of processor time), and the same counts."""
        began, ran = time.perf_counter(), self.processor()
        counts = self.window(*blocks)
        return (time.perf_counter() - began, self.processor() - ran), counts

    def processor(self):
        with open('/proc/%d/schedstat' % self.process.pid, encoding='ascii') as times:
            return int(times.read().split()[0]) / 1e9

    def peak(self):
        """The most memory that it has used so far, in KiB."""
        with open('/proc/%d/status' % self.process.pid, encoding='ascii') as status:
            return next(int(line.split()[1]) for line in status if line.startswith('VmHWM'))

    def fails(self, counts, events):
        """Ends the run, and returns 1 if it ends badly or if these are not the counts after so many events, otherwise 0."""
        self.process.stdin.close()
        told, wanted = (self.process.wait(), *counts), (0, (events - 1) % MOST + 1, events)
        if told != wanted:
            print('    status, window and events are %s, expected %s  FAILED' % (told, wanted))
        return int(told != wanted)


def show_long_run(path, name, lines, events, count):
    """Runs these lines, which are so many events, again and again, for about `count` events; and before that, to compare, some runs
    that are too short for a fold."""
    few, failed, each = FEW // events, 0, []
    for _ in range(RUNS):
        child = Child(path)
        child.window(START)
        times, counts = child.timed(lines * few)
        failed += child.fails(counts, STARTED + few * events)
        each.append([t / (few * events) * 1e6 for t in times])
    row('%s, %d events, no fold (us each)' % (name, few * events), [shown(statistics.median(times)) for times in zip(*each)])
    child, first, block = Child(path), MOST // events + 1, BLOCK // len(lines)
    child.window(START + lines * first)
    peak, blocks = child.peak(), count // (block * events) + 1
    times, counts = child.timed(*[lines * block] * blocks)
    run = blocks * block * events
    row('.. %d events (us each)' % run, [shown(t / run * 1e6) for t in times], 'as without a fold')
    row('.. peak after the first window (KiB)', (peak, ''))
    row('.. peak at the end (KiB)', (child.peak(), ''), 'as after the first window')
    return failed + child.fails(counts, STARTED + first * events + run)


def show_waits(path):
    """The time from each line to its answer, one line after the other, with the longest queue in random order."""
    child, waits = Child(path), []
    kept, _ = child.window(START + ADD * ENTRIES + b'1 random 1\n1 play\n')
    for _ in range(WINDOWS * MOST):
        began = time.perf_counter()
        child.feed(PING)
        child.heard()
        waits.append((time.perf_counter() - began) * 1e6)
    folds = [wait for place, wait in enumerate(waits) if (kept + place) % MOST == 0]
    row('answer at %d entries, median of %d (us)' % (ENTRIES, len(waits)), (shown(statistics.median(waits)), ''))
    row('.. longest (us)', (shown(max(waits)), ''))
    row('.. median of the %d after a fold (us)' % len(folds), (shown(statistics.median(folds)), ''), 'less than 2000')
    row('.. longest of these (us)', (shown(max(folds)), ''), 'less than 2000')
    return child.fails(child.window(), STARTED + ENTRIES + 2 + len(waits))


def check(program):
    """Prints a table, and returns the number of failures."""
    print('Folds of the history (load average %.1f, %d processors)' % (os.getloadavg()[0], os.cpu_count()))
    row('median of %d runs, and one long run' % RUNS, ('elapsed', 'processor'), 'target')
    return (show_long_run(program.path, 'ping', PING, 1, PINGS) + show_waits(program.path)
            + show_long_run(program.path, 'mixed', CYCLE, CYCLE.count(b'\n') - 2, MIXED))
