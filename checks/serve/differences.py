#!/usr/bin/env python3
"""Compares the daemon's answers with MPD's: both are sent the requests in checks/serve/transcripts, and docs/DIFFERENCES.md must name each
difference and its reason.

    checks/serve/differences.py [PROGRAM]                   compares
    checks/serve/differences.py [PROGRAM] --write           compares, and writes the differences into the transcripts and the page
    checks/serve/differences.py [PROGRAM] --only NAME       compares only the transcripts of one file, and not the page
    checks/serve/differences.py --songs FOLDER              compares nothing, and writes the songs of the transcripts to FOLDER
    checks/serve/differences.py --at PORT --music FOLDER    compares with a daemon that already runs on this machine, with the songs in FOLDER

It needs Debian's package mpd, version 0.23. A daemon that already runs must have the settings that `settings_of` shows.

A transcript begins with `== NAME`, new clients and an empty queue. Its lines are like those of scripts for music_daemon: `1 add first` is a
line of client 1; `sides.py` explains the steps. Below a line with different answers are the names of the differences (after `=`), the lines that
only MPD answered (after `<`), and those that only music_daemon answered (after `>`). The RULES below remove some differences before the answers
are compared; these have names on the page too, but no marks in the transcripts.

The check fails if answers do not differ in the way that the transcript says, if a difference is not on the page, if one that is on the page no
longer occurs, or if no transcript uses some command that music_daemon has.
"""
import difflib
import glob
import os
import re
import shutil
import sys
import tempfile
from collections import namedtuple
from concurrent.futures import ThreadPoolExecutor

sys.dont_write_bytecode = True

from daemon import HERE, ROOT, Daemon, Mpd, Pacer, Table, arguments_of, program_of, values
from sides import RATE, Side, put_library

PAGE = os.path.join(ROOT, 'docs', 'DIFFERENCES.md')
SEEN = re.compile(r'(?<=<!-- seen -->\n).*(?=<!-- end -->)', re.S)
ROW = re.compile(r'^\| \*\*([a-z-]+)\*\* \|', re.M)
SHOWN = 3     # how many lines of an answer the page shows at most
MOST = 8      # how many lines of a difference a transcript shows at most, before it says how many more there were
LEAST = 200   # how many transcripts there must be at least
ACK = re.compile(r'(\d ACK \[\d+@\d+\] \{\w*\}) .*')
TAGS = ('Title', 'Artist', 'Album', 'Date', 'Genre', 'Comment', 'AlbumArtist', 'Track', 'Disc', 'Composer')
OUTPUT = 'type "null"\nmixer_type "software"'

Transcript = namedtuple('Transcript', 'name steps')
# a line that is sent, the names of the differences between the answers, and the lines that only one of the two answered, after `< ` or `> `
Step = namedtuple('Step', 'line names answers')


# ---- transcripts

def read(path):
    with open(path, encoding='utf-8') as file:
        return file.read()


def parsed(text):
    """What comes before the first transcript of a file, and the transcripts."""
    head, *parts = re.split(r'(?m)^== ', text)
    return head, [transcript_of(part) for part in parts]


def transcript_of(text):
    name, *lines = text.rstrip('\n').split('\n')
    steps = []
    for line in lines:
        if line.startswith('= '):
            steps[-1] = steps[-1]._replace(names=line[2:].split())
        elif line[:2] in ('< ', '> '):
            steps[-1].answers.append(line)
        elif line:
            steps.append(Step(line, [], []))
    return Transcript(name, steps)


def written(head, transcripts):
    """The text of a file of transcripts."""
    parts = []
    for transcript in transcripts:
        lines = ['== ' + transcript.name]
        for step in transcript.steps:
            lines += [step.line] + (['= ' + ' '.join(step.names or ['?'])] if step.answers else []) + step.answers
        parts.append('\n'.join(lines) + '\n')
    return head + '\n'.join(parts)


# ---- what is compared

def without(pattern):
    """A rule that removes lines from MPD's answers."""
    def rule(mpd, own):
        left = [line for line in mpd if not re.match(pattern, line)]
        return left, own, left != mpd
    return rule


def without_texts(mpd, own):
    """A rule that ignores the texts of two refusals with the same number, place and command."""
    pairs = [(ACK.match(one), ACK.match(other)) for one, other in zip(mpd, own)]
    same = [one and other and one.group(0) != other.group(0) and one.group(1) == other.group(1) for one, other in pairs]
    plain = [pair[0].group(1) if is_same else None for pair, is_same in zip(pairs, same)]

    def shown(lines):
        return [plain[at] if at < len(plain) and plain[at] else line for at, line in enumerate(lines)]
    return shown(mpd), shown(own), any(same)


def without_order(mpd, own):
    """A rule that puts the tags of each song into the order of music_daemon."""
    def in_order(lines):
        found, tags, is_song = [], [], False
        for line in lines + ['']:
            key = line[2:].partition(': ')[0]
            if is_song and key in TAGS:
                tags.append(line)
            else:
                is_song = key == 'file' or is_song and key not in ('directory', 'playlist')
                found += sorted(tags, key=lambda tag: TAGS.index(tag[2:].partition(': ')[0])) + [line]
                tags = []
        return found[:-1]
    return in_order(mpd), own, mpd != own and in_order(mpd) == own


def without_status_order(mpd, own):
    """A rule that puts the next song in `status` after the current one, where music_daemon has it."""
    after = [line for line in mpd if re.match(r'\d nextsong(id)?: ', line)]
    at = next((at for at, line in enumerate(mpd) if re.match(r'\d songid: ', line)), None)
    if not after or at is None:
        return mpd, own, False
    left = [line for line in mpd if line not in after]
    moved = left[:at + 1] + after + left[at + 1:]
    return moved, own, moved != mpd


def without_plugin(mpd, own):
    """A rule that ignores the plugin of the outputs, which in this MPD is `null`."""
    if 'plugin: raw' not in {line[2:] for line in own}:
        return mpd, own, False
    plain = [line.replace('plugin: null', 'plugin: raw') for line in mpd]
    return plain, own, plain != mpd


def sorted_lists(lines):
    """An answer with the stored playlists in byte order; MPD has them in the order in which its folder lists them."""
    found, lists = [], []
    for line in lines + ['']:
        if line[2:].startswith('playlist: '):
            lists.append(line)
        else:
            found += sorted(lists) + [line]
            lists = []
    return found[:-1]


RULES = {
    'song-lines': without(r'\d (Last-Modified|Format): '),
    'status-lines': without(r'\d (mixrampdb|mixrampdelay|bitrate): '),
    'output-plugin': without_plugin,
    'status-order': without_status_order,
    'tag-order': without_order,
    'refusal-texts': without_texts,
}


def compared(mpd, own):
    """The lines that only one of two answers has, in their order, and the rules that removed something."""
    used = set()
    for name, rule in RULES.items():
        mpd, own, has_used = rule(mpd, own)
        used |= {name} if has_used else set()
    mpd, own = sorted_lists(mpd), sorted_lists(own)
    lines = [line for line in difflib.ndiff(mpd, own) if line[0] in '-+']
    return shortened([('< ' if line[0] == '-' else '> ') + line[2:] for line in lines]), used


def shortened(lines):
    found = []
    for sign in '<>':
        of_one = [line for line in lines if line[0] == sign]
        found += of_one[:MOST] + (['%s and %d more' % (sign, len(of_one) - MOST)] if len(of_one) > MOST else [])
    return found


class Seen:
    """What differed: for each name the transcripts and an example, and for each rule how many answers it changed. Also the commands that were
    sent; `kill` counts as sent, since it would end both daemons."""

    def __init__(self):
        self.steps, self.rules, self.count, self.sent = {}, dict.fromkeys(RULES, 0), 0, {'kill'}

    def add(self, transcript, step):
        self.sent.add(step.line.split(' ')[1] if ' ' in step.line else '')
        for name in step.names:
            self.steps.setdefault(name, []).append((transcript, step))

    def example(self, name):
        """The first step that shows only this difference, or else the first that shows it among others."""
        found = self.steps[name]
        return next((it for it in found if it[1].names == [name]), found[0])


def run(transcript, sides, seen):
    """Runs a transcript, and returns it with the differences that there are now."""
    lines = [step.line for step in transcript.steps]
    with ThreadPoolExecutor(len(sides)) as both:
        answers = list(both.map(lambda side: side.answers(lines), sides))
    steps = []
    for step, mpd, own in zip(transcript.steps, *answers):
        different, used = compared(mpd, own)
        for name in used:
            seen.rules[name] += 1
        steps.append(Step(step.line, (step.names or ['?']) if different else [], different))
        seen.add(transcript.name, steps[-1])
    seen.count += 1
    return Transcript(transcript.name, steps)


# ---- the page

def span(line):
    return '`%s`' % line.replace('`', "'").replace('|', '\\|')


def lines_shown(answers, sign):
    lines = [line[2:] for line in answers if line[0] == sign]
    return '<br>'.join([span(line) for line in lines[:SHOWN]] + (['and more'] if len(lines) > SHOWN else [])) or 'nothing'


def table_of(seen):
    """The generated part of the page: how often each difference was seen, with an example."""
    lines = ['%d transcripts were compared.' % seen.count, '',
             '| Difference | Transcripts | Example | Sent | MPD answers | music_daemon answers |', '|---|---|---|---|---|---|']
    for name in sorted(seen.steps):
        transcript, step = seen.example(name)
        count = len({it for it, _ in seen.steps[name]})
        lines.append('| %s | %d | %s | %s | %s | %s |' % (name, count, transcript, span(step.line), *[lines_shown(step.answers, it) for it in '<>']))
    return '\n'.join(lines) + '\n'


def page_faults(page, seen):
    """In what the page disagrees with what was seen."""
    named, found = ROW.findall(page), set(seen.steps) | {name for name, count in seen.rules.items() if count}
    yield from ('%s: the page names it twice' % name for name in sorted({it for it in named if named.count(it) > 1}))
    yield from ('%s: the page does not name it' % name for name in sorted(found - set(named)))
    yield from ('%s: the page names it, but it was not seen' % name for name in sorted(set(named) - found))
    if SEEN.findall(page) != [table_of(seen)]:
        yield 'the table of the page does not show what was seen: run this with --write'


# ---- both daemons

class At:
    """A daemon that already runs."""

    def __init__(self, port):
        self.port = port

    def kill(self):
        pass


def settings_of(pacers):
    """The settings with which music_daemon is started."""
    return {'outputs': [pacer.path for pacer in pacers], 'rate': RATE, 'kill': True, 'more': 'everyday = true'}


def compare(sides, table, is_written, only):
    """Runs all transcripts, or those of one file."""
    seen = Seen()
    for path in sorted(glob.glob(os.path.join(HERE, 'transcripts', (only or '*') + '.txt'))):
        head, transcripts = parsed(read(path))
        now = [run(transcript, sides, seen) for transcript in transcripts]
        wrong = [(old, new) for old, new in zip(transcripts, now) if old != new]
        table.row(os.path.basename(path), len(now), sum(any(step.answers for step in it.steps) for it in now), right=not wrong)
        for old, new in wrong:
            print('\n'.join(difflib.unified_diff(*[written('', [it]).split('\n') for it in (old, new)], 'the transcript', 'now', n=9, lineterm='')))
        if is_written:
            with open(path, 'w', encoding='utf-8') as file:
                file.write(written(head, now))
    return seen


def judged(seen, commands, table, is_written):
    """Compares the page with what was seen, and with --write writes its table first. The commands are those that music_daemon has."""
    page = read(PAGE)
    if is_written:
        page = SEEN.sub(lambda _: table_of(seen), page)
        with open(PAGE, 'w', encoding='utf-8') as file:
            file.write(page)
    for name, count in seen.rules.items():
        table.row(name, '', count)
    faults = list(page_faults(page, seen))
    if seen.count < LEAST:
        faults.append('there are only %d transcripts, and should be at least %d' % (seen.count, LEAST))
    faults += ['no transcript uses the command %s' % name for name in commands if name not in seen.sent]
    for fault in faults:
        table.row(fault, right=False)


def words():
    parser = arguments_of("Compares the daemon's answers with MPD's.")
    parser.add_argument('--write', action='store_true', help='write the differences into the transcripts and docs/DIFFERENCES.md')
    parser.add_argument('--only', metavar='NAME', help='compare only the transcripts of this file')
    parser.add_argument('--songs', metavar='FOLDER', help='only write the songs of the transcripts to this folder')
    parser.add_argument('--at', type=int, metavar='PORT', help='use a daemon that already runs on this machine')
    parser.add_argument('--music', metavar='FOLDER', help='with --at: the folder of songs of that daemon')
    return parser.parse_args()


def started(given, folder, pacers):
    """Starts both daemons on the same songs, MPD first."""
    music = given.music or os.path.join(folder, 'music')
    if not given.music:
        put_library(music)
    yield Mpd(folder, music, outputs=(OUTPUT, OUTPUT))
    if given.at:
        yield At(given.at)
    else:
        pacers += [Pacer(os.path.join(folder, 'fifo%d' % number), RATE) for number in range(2)]
        yield Daemon(program_of(given.program), folder, music, **settings_of(pacers))


def compared_by(given, folder, table):
    servers, pacers = [], []
    try:
        for server in started(given, folder, pacers):
            servers.append(server)
        sides = [Side(server) for server in servers]
        if not sides[0].owner.greeting.startswith('OK MPD 0.23.'):
            table.row('the page is about MPD 0.23, but the installed one answers %s' % sides[0].owner.greeting, right=False)
            return
        table.row('', 'transcripts', 'different')
        seen = compare(sides, table, given.write, given.only)
        if not given.only:
            judged(seen, values(sides[1].owner.must('commands'), 'command'), table, given.write)
    finally:
        for one in servers + pacers:
            one.kill()


def main():
    given = words()
    if given.songs:
        put_library(given.songs)
        return 0
    if not shutil.which('mpd'):
        print('mpd is not installed (Debian: apt-get install mpd), so nothing was compared')
        return 0
    table = Table("The daemon's answers next to MPD's", 24, -11, -9)
    with tempfile.TemporaryDirectory() as folder:
        compared_by(given, folder, table)
    return table.status()


if __name__ == '__main__':
    sys.exit(main())
