"""What the clients of a long run do. Each is a generator, which also checks the answers."""
import os
import random
import shutil

from answers import Fault
from daemon import put_songs, uri_of, values
from loop import CLOSE, CONNECT, Waits

SONGS = 100         # how many songs the folder has
LENGTH = 80_000     # how many frames a song has: ten seconds
LONGEST = 60        # how many entries a queue has at most
LOOKS = ['ping', 'status', 'currentsong', 'playlistinfo 0:5', 'plchangesposid 1 0:5', 'outputs', 'listpartitions', 'list artist',
         'count artist "Artist 3"', 'lsinfo', 'search any song window 0:10', 'listplaylists', 'commands', 'stats', 'tagtypes', 'channels',
         'list album group artist', 'playlistid', 'listall "album 03"']
# the refusals that have a reason: the player has stopped, or the output is in another partition
REFUSED = {'next': '[55@0] {next} not playing', 'previous': '[55@0] {previous} not playing', 'seekcur': '[55@0] {seekcur} not playing',
           'toggleoutput': '[50@0] {toggleoutput} no such output', 'enableoutput': '[50@0] {enableoutput} no such output'}


def ask(request, *permitted):
    """Sends a request: the lines of the answer without the last. A refusal is a fault, unless it is permitted."""
    lines = yield request
    last = lines[-1]
    if last != 'OK' and not any(last.startswith('ACK ' + front) for front in permitted):
        raise Fault('refused', '%s: %s' % (request.replace('\n', '; ')[:200], last))
    return lines[:-1] if last == 'OK' else None


def in_list(*requests):
    return '\n'.join(['command_list_ok_begin', *requests, 'command_list_end'])


def answers_of(lines):
    """The answers to the commands of a command list."""
    found = [[]]
    for line in lines:
        found[-1:] = [found[-1], []] if line == 'list_OK' else [found[-1] + [line]]
    return found[:-1]


def must(is_right, what, told):
    if not is_right:
        raise Fault('a wrong answer', '%s: %s' % (what, str(told)[:300]))


def rest(draw, pace):
    return draw.expovariate(1 / pace) + 0.05


def moved_to(part):
    if part:
        yield from ask('partition p%d' % part)


def editor(part, draw, pace):
    """The only client that edits its partition's queue: it knows what is in the queue, and compares."""
    yield from moved_to(part)
    yield from ask('clear')
    queue = []
    while True:
        yield rest(draw, pace)
        kind, place = draw.randrange(8), draw.randrange(len(queue) + 1)
        if kind < 3 and len(queue) < LONGEST or not queue:
            uri = uri_of(draw.randrange(SONGS))
            number, = values((yield from ask('addid "%s" %d' % (uri, place))), 'Id')
            queue.insert(place, (number, uri))
        elif kind < 4:
            yield from ask('deleteid %s' % queue.pop(place % len(queue))[0])
        elif kind < 5:
            entry = queue.pop(place % len(queue))
            to = draw.randrange(len(queue) + 1)
            yield from ask('moveid %s %d' % (entry[0], to))
            queue.insert(to, entry)
        elif kind < 6:
            uris = [uri_of(draw.randrange(SONGS)) for _ in range(draw.randrange(1, 4))]
            lines = yield from ask(in_list(*['addid "%s"' % uri for uri in uris], 'prio %d 0' % draw.randrange(256)))
            queue += list(zip(values(lines, 'Id'), uris))
            while len(queue) > LONGEST:
                yield from ask('delete 0')
                del queue[0]
        else:
            lines = yield from ask('playlistinfo')
            found = list(zip(values(lines, 'Id'), values(lines, 'file')))
            must(found == queue, 'playlistinfo of p%d' % part, '%s is not %s' % (found, queue))


def player(part, draw, pace):
    """Plays, skips, changes modes, and takes outputs from other partitions."""
    yield from moved_to(part)
    yield from ask('repeat 1')
    while True:
        yield rest(draw, pace)
        volume, output = draw.randrange(101), draw.randrange(8)
        request = draw.choice(['play', 'play', 'pause 1', 'pause 0', 'next', 'previous', 'stop', 'seekcur +1', 'seekcur 9', 'random 1', 'random 0',
                               'crossfade 0', 'crossfade 2', 'single 0', 'single oneshot',
                               'moveoutput out%d' % output, 'toggleoutput %d' % output, 'enableoutput %d' % output, 'volume', 'shown'])
        if request in ('volume', 'shown'):
            lines = answers_of((yield from ask(in_list('setvol %d' % volume, 'status'))))
            must(values(lines[1], 'volume') == [str(volume)], 'status after setvol %d' % volume, lines[1])
            must(values(lines[1], 'partition') == ['p%d' % part if part else 'default'], 'the partition in status', lines[1])
        else:
            yield from ask(request, *filter(None, [REFUSED.get(request.split(' ')[0])]))
        if draw.randrange(3) == 0:
            yield from ask('play')


def looker(part, draw, pace):
    """Sends all kinds of requests. It has a playlist, a sticker and a channel of its own, and knows what is in them."""
    yield from moved_to(part)
    song, tag, name = uri_of(10 + part), 'rating%d' % part, 'list%d' % part
    yield from ask('subscribe own%d' % part)
    while True:
        yield rest(draw, pace)
        kind, number = draw.randrange(8), draw.randrange(10, SONGS)
        if kind == 0:
            lines = yield from ask('find Title "Song %d"' % number)
            must(values(lines, 'file') == [uri_of(number)], 'find of song %d' % number, lines)
        elif kind == 1:
            value = str(draw.randrange(1000))
            yield from ask('sticker set song "%s" %s %s' % (song, tag, value))
            lines = yield from ask('sticker get song "%s" %s' % (song, tag))
            must(lines == ['sticker: %s=%s' % (tag, value)], 'sticker get', lines)
        elif kind == 2:
            # Within one command list, what is saved and listed is the same queue.
            _, listed, queue, _ = answers_of((yield from ask(in_list('save ' + name, 'listplaylist ' + name, 'playlistinfo', 'rm ' + name))))
            must(values(listed, 'file') == values(queue, 'file'), 'listplaylist of what was saved', listed)
        elif kind == 3:
            text = 'text %d' % draw.randrange(10**6)
            _, lines = answers_of((yield from ask(in_list('sendmessage own%d "%s"' % (part, text), 'readmessages'))))
            must(lines[-2:] == ['channel: own%d' % part, 'message: ' + text], 'readmessages', lines)
        else:
            yield from ask(draw.choice(LOOKS))


def waiter(part, draw, pace):
    """Waits in `idle` for changes, and gives up now and then."""
    yield from moved_to(part)
    while True:
        names = draw.choice([[], ['player', 'mixer', 'options'], ['playlist'], ['output', 'partition'], ['database', 'update', 'stored_playlist', 'sticker']])
        lines = yield Waits(names, 10 * pace)
        told = values(lines, 'changed')
        must(lines[-1] == 'OK' and (not names or not told or set(told) & set(names)), 'idle ' + ' '.join(names), lines)
        yield rest(draw, pace / 4)


def guest(draw, pace):
    """Makes a partition, plays in it, and deletes it."""
    # If this client was started again, the partition may still be there.
    yield from ask('delpartition guest', '[50@0]')
    while True:
        yield from ask('newpartition guest')
        yield from ask('partition guest')
        yield from ask('addid "%s"' % uri_of(draw.randrange(SONGS)))
        lines = yield from ask('status')
        must(values(lines, 'playlistlength') == ['1'], 'the queue of a new partition', lines)
        yield from ask('play')
        yield rest(draw, 2 * pace)
        lines = yield from ask('listpartitions')
        must(len(lines) == 16, 'listpartitions', lines)
        yield from ask('partition default')
        yield from ask('delpartition guest')
        yield rest(draw, pace)


def comer(draw, pace):
    """Connects and disconnects: after a command list, after a wait in `idle`, or after an answer."""
    while True:
        yield from ask('ping')
        kind = draw.randrange(3)
        if kind == 0:
            yield Waits([], pace)
        elif kind == 1:
            yield from ask(in_list('status', 'ping'))
        yield CLOSE
        yield rest(draw, pace)
        yield CONNECT


def scanner(music, draw, pace):
    """Adds an album to the folder and removes it again, and has the folder scanned each time; no queue uses this album."""
    more = os.path.join(music, 'more')
    while True:
        yield rest(draw, 15 * pace)
        if os.path.exists(more):
            shutil.rmtree(more)
        else:
            put_songs(more, 10, LENGTH, 8000)
        wanted = SONGS + 10 * os.path.exists(more)
        yield from ask('update')
        lines = yield from ask('status')
        while values(lines, 'updating_db'):
            yield 0.2
            lines = yield from ask('status')
        lines = yield from ask('stats')
        must(values(lines, 'songs') == [str(wanted)], 'stats after a scan of %d songs' % wanted, lines)


def stories(music, seed, pace):
    """The stories of all clients, by name: four clients in each of 15 partitions, one of which has the folder scanned instead; one client that
    makes the 16th partition; and one that connects and disconnects."""
    def told(kind, *words):
        draw = random.Random(len(found) + 1000 * seed)
        return lambda: kind(*words, draw, pace)
    found = []
    for part in range(15):
        for kind in (editor, player, looker, waiter):
            found.append(('%s of p%d' % (kind.__name__, part), told(kind, part)))
    found += [('guest', told(guest)), ('comer', told(comer))]
    found[3] = ('scanner', told(scanner, music))
    return found
