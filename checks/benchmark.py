"""Benchmark: times and memory of the built program, next to the targets. It only prints them; nothing fails."""
import os
import statistics
import tempfile
import time

ENTRIES = 16384  # how many entries the longest queue has that is measured
RUNS = 5         # how many runs are made, of which the best counts
PAIRS = 51       # how many pairs of runs are made, of which the median counts, if the runs of a pair take nearly the same time
SONG = b'! song a.wav 8000\n'
ADD, DELETE, STATUS, CHANGES, PING = b'1 add a.wav\n', b'1 delete 0\n', b'1 status\n', b'1 plchangesposid 0\n', b'1 ping\n'
NO_SONG = b'1 add nosuch\n'
ALL, WINDOW, NEW = b'1 playlistinfo\n', b'1 playlistinfo 0:50\n', b'1 plchanges %d\n'
PING_TEXTS, NO_SONG_TEXTS = len(b'OK\n'), len(b'nosuch' + b'ACK [50@0] {add} no such song\n')
SONGS = 5000     # how many songs the library has that is measured; search/bench.sh measures one of 100,000


class Time:
    """Seconds that elapsed, and seconds of processor time, which other programs disturb less."""

    def __init__(self, passed, processor):
        self.passed, self.processor = passed, processor

    def each(self, less, times):
        """How many microseconds longer this run took than another, for each of so many lines."""
        return Time((self.passed - less.passed) / times * 1e6, (self.processor - less.processor) / times * 1e6)


def song_texts(number):
    """The URI and the three tags of the song with this number. Each folder has a thousand songs; there are a hundred artists."""
    folder = number // 1000
    return b'%03d/%06d.wav' % (folder, number), (b'Title=T%06d' % number, b'Artist=A%02d' % (number % 100), b'Album=B%03d' % folder)


def library(count):
    """The lines that put so many songs into the library."""
    return b''.join(b'! song %s 8000 %s\n' % (uri, b' '.join(tags)) for uri, tags in map(song_texts, range(count)))


def timed(path, script):
    """Times one run of a script file; its output is thrown away."""
    actions = [(os.POSIX_SPAWN_OPEN, 0, script, os.O_RDONLY, 0), (os.POSIX_SPAWN_OPEN, 1, os.devnull, os.O_WRONLY, 0)]
    start = time.perf_counter()
    process = os.posix_spawn(path, [path, 'script'], os.environ, file_actions=actions)
    _, status, usage = os.wait4(process, 0)
    passed = time.perf_counter() - start
    if status != 0:
        raise SystemExit('benchmark: the program ended with wait status %d' % status)
    return Time(passed, usage.ru_utime + usage.ru_stime)


def turns(path, inputs, count):
    """Times each of the inputs so many times. They take turns, so that a change in the machine's speed affects all of them alike."""
    with tempfile.TemporaryDirectory() as folder:
        scripts = []
        for lines in inputs:
            scripts.append(os.path.join(folder, str(len(scripts))))
            with open(scripts[-1], 'wb') as script:
                script.write(lines)
        return list(zip(*[[timed(path, script) for script in scripts] for _ in range(count)]))


def best(times):
    """The best of the runs, separately for each of the two times."""
    return Time(min(t.passed for t in times), min(t.processor for t in times))


def median(more, less, lines):
    """Microseconds for each of so many lines: the median difference of two runs that were made in the same turn."""
    each = [m.each(l, lines) for m, l in zip(more, less)]
    return Time(statistics.median(t.passed for t in each), statistics.median(t.processor for t in each))


def row(name, values, wanted=''):
    print('  %-44s %12s %12s   %s' % (name, *values, wanted))


def shown(value):
    return '%.0f' % value if abs(value) >= 100 else '%.2f' % value


def both(measured):
    return shown(measured.passed), shown(measured.processor)


def show_long_times(path, queue):
    row('best of %d' % RUNS, ('elapsed', 'processor'), 'target')
    pings, = map(best, turns(path, [PING * 100000], RUNS))
    row('ping, lines a second', ('%.0f' % (1e5 / pings.passed), '%.0f' % (1e5 / pings.processor)), '1000000 or more')
    full, deleted, listed = map(best, turns(path, [queue, queue + DELETE * 10000, queue + CHANGES * 20], RUNS))
    row('delete 0 at %d entries (us each)' % ENTRIES, both(deleted.each(full, 10000)), 'less than 100')
    row('plchangesposid 0 at %d entries (us each)' % ENTRIES, both(listed.each(full, 20)))


def show_songs(path, start, queue):
    """Commands that show the queue, and edits by id at its front. What an answer costs depends on how many bytes it has."""
    small = start + ADD * 100
    changed = queue + b'1 prio 1 0\n'
    new = NEW % (ENTRIES + 1)
    inputs = [queue, queue + ALL * 20, queue + WINDOW * 2000, small, small + WINDOW * 2000, changed, changed + new * 1000,
              queue + b''.join(b'1 moveid %d 0\n' % (i % 2 + 1) for i in range(1000)),
              queue + b''.join(b'1 deleteid %d\n' % (i + 1) for i in range(1000))]
    full, whole, window, few, few_window, one, one_new, moved, deleted = map(best, turns(path, inputs, RUNS))
    each = whole.each(full, 20)
    row('playlistinfo at %d entries, entries a second' % ENTRIES, ('%.0f' % (ENTRIES / each.passed * 1e6), '%.0f' % (ENTRIES / each.processor * 1e6)), '500000 or more')
    row('playlistinfo 0:50 at %d entries (us each)' % ENTRIES, both(window.each(full, 2000)), 'up to 1.5 times the next')
    row('playlistinfo 0:50 at 100 entries (us each)', both(few_window.each(few, 2000)))
    row('plchanges after one change (us each)', both(one_new.each(one, 1000)))
    row('moveid at the front (us each)', both(moved.each(full, 1000)))
    row('deleteid at the front (us each)', both(deleted.each(full, 1000)))


def show_lists(path, start):
    """A command list of `add`s, compared with the same lines outside a list."""
    before = start + ADD * 15000
    alone = before + ADD * 1000
    listed = before + b'1 command_list_begin\n' + ADD * 1000 + b'1 command_list_end\n'
    with_ok = before + b'1 command_list_ok_begin\n' + ADD * 1000 + b'1 command_list_end\n'
    none, lines, plain, ok = turns(path, [before, alone, listed, with_ok], PAIRS)
    row('1000 add onto 15000, lines alone (us each)', both(median(lines, none, 1000)))
    row('.. in a list (us each)', both(median(plain, none, 1000)), 'at most as the lines alone')
    row('.. in a list with list_OK (us each)', both(median(ok, none, 1000)))


def show_library(path):
    """Questions to the library; the times include writing the answers."""
    start = library(SONGS) + PING
    questions = [('find artist', b'1 find "(Artist == \'A07\')"\n', ''), ('find artist, a window of 10', b'1 find "(Artist == \'A07\')" window 0:10\n', ''),
                 ('search any, a window of 10', b'1 search any a07 window 0:10\n', ''), ('list artist', b'1 list artist\n', ''),
                 ('count of an artist', b'1 count artist A07\n', ''), ('lsinfo of the root', b'1 lsinfo\n', ''), ('lsinfo of a folder of 1000', b'1 lsinfo 002\n', '')]
    none, *asked = map(best, turns(path, [start] + [start + line * 20 for _, line, _ in questions], RUNS))
    for (name, _, wanted), time_of in zip(questions, asked):
        row('%s, %d songs (us each)' % (name, SONGS), both(time_of.each(none, 20)), wanted)


def show_playback(path, queue):
    """What play order costs with a long queue."""
    random = queue + b'1 random 1\n'
    playing = random + b'1 play\n'
    inputs = [queue, random, playing, playing + b'1 next\n' * 1000, queue + b'1 shuffle\n' * 20, queue + b'1 random 1\n1 random 0\n' * 20,
              playing + STATUS * 200, queue + b'1 play\n', queue + b'1 play\n' + STATUS * 1000]
    full, _, played, nexts, shuffles, randoms, random_status, in_order, in_order_status = map(best, turns(path, inputs, RUNS))
    row('next in random order at %d entries (us each)' % ENTRIES, both(nexts.each(played, 1000)), 'less than 1000')
    row('shuffle of %d entries (us each)' % ENTRIES, both(shuffles.each(full, 20)), 'less than 5000')
    row('random 1 and random 0 at %d entries (us)' % ENTRIES, both(randoms.each(full, 20)))
    row('status while playing, in order (us each)', both(in_order_status.each(in_order, 1000)), 'as at 1 entry')
    row('status while playing, in random order (us each)', both(random_status.each(played, 200)), 'as at 1 entry')
    before = SONG + b'1 random 1\n' + ADD * (ENTRIES - 1000)
    none, added = turns(path, [before, before + ADD * 1000], PAIRS)
    row('add with random on, last 1000 of %d (us each)' % ENTRIES, both(median(added, none, 1000)))


def show_short_times(path, start, queue):
    row('median of %d differences of two runs' % PAIRS, ('elapsed', 'processor'), 'target')
    none, few, most, full, full_status, one, one_status = turns(path, [
        start, start + ADD * 1000, start + ADD * (ENTRIES - 1000), queue, queue + STATUS * 1000,
        start + ADD, start + ADD + STATUS * 1000], PAIRS)
    first, last = median(few, none, 1000), median(full, most, 1000)
    row('add, first 1000 (us each)', both(first))
    row('add, last 1000 of %d (us each)' % ENTRIES, both(last))
    row('.. last to first', (shown(last.passed / first.passed), shown(last.processor / first.processor)), '1.5 or less')
    row('status at 1 entry (us each)', both(median(one_status, one, 1000)))
    row('status at %d entries (us each)' % ENTRIES, both(median(full_status, full, 1000)), 'as at 1 entry')


def show_memory(program):
    def peak(lines):
        """The most memory that the program used, in KiB."""
        return program.run_with(lines).counts['peak_kib']

    def each(line):
        """By how many bytes the peak grows with each event, between 2,100 and 4,000 events; a window holds at most 4,096."""
        return '%.0f' % ((peak(line * 4000) - peak(line * 2100)) * 1024 / 1900)

    row('memory', ('', ''), 'target')
    row('peak, 1 ping (KiB)', (peak(PING), ''))
    row('peak, 100000 pings (KiB)', (peak(PING * 100000), ''))
    row('peak, %d adds, 10000 deletes (KiB)' % ENTRIES, (peak(SONG + ADD * ENTRIES + DELETE * 10000), ''))
    row('ping, bytes for each event of the window', (each(PING), ''), '%d or less, with its texts' % (200 + PING_TEXTS))
    row('add of no song, bytes for each event of the window', (each(NO_SONG), ''), '%d or less, with its texts' % (200 + NO_SONG_TEXTS))


def check(program):
    """Prints a table; returns 0, since nothing here fails."""
    print('Benchmark (load average %.1f, %d processors)' % (os.getloadavg()[0], os.cpu_count()))
    start = SONG + PING
    queue = start + ADD * ENTRIES
    show_long_times(program.path, queue)
    show_songs(program.path, start, queue)
    show_lists(program.path, start)
    show_library(program.path)
    show_playback(program.path, queue)
    show_short_times(program.path, start, queue)
    show_memory(program)
    return 0
