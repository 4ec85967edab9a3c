"""Commands that edit the queue and show it."""
from commands import command
from words import NOT_THERE, SYNC, Ack, bad_index, number, number_up_to, position, span, uri


def no_such_song():
    return Ack(NOT_THERE, 'no such song')


def existing(found):
    """What was looked for, if it was found."""
    if found is None:
        raise no_such_song()
    return found


def songs_named(speaker, name):
    """The song of this name, or the songs of the folder of this name."""
    return existing(speaker.library.songs_of(name))


def song_named(speaker, name):
    return existing(speaker.library.song(name))


def place_of(speaker, where):
    """The place in the queue that a position means; a position with a sign is counted from the current song."""
    sign, count = where
    if sign:
        current = speaker.queue.place_of(speaker.player.current)
        if current is None:
            raise Ack(SYNC, 'no current song')
        count = current + 1 + count if sign == '+' else current - count
    if not 0 <= count <= len(speaker.queue):
        raise bad_index()
    return count


def insert(speaker, songs, at=None):
    """Inserts songs into the queue, either all or none, and returns the ids of their entries."""
    speaker.queue.room_for(len(songs))
    added = speaker.queue.insert(len(speaker.queue) if at is None else at, songs)
    speaker.order.added(added)
    return [entry.id for entry in added]


def known_place(speaker, place):
    if place >= len(speaker.queue):
        raise bad_index()
    return place


def known_id(speaker, entry_id):
    """The place of the entry with this id."""
    return existing(speaker.queue.place_of(entry_id))


def whole(speaker, part):
    """Where a range of the queue begins and ends; no range means the whole queue."""
    return part.within(len(speaker.queue)) if part else (0, len(speaker.queue))


@command('add', uri)
def add(speaker, name):
    insert(speaker, songs_named(speaker, name))


@command('addid', uri, optional=[position])
def addid(speaker, name, where=None):
    song = song_named(speaker, name)
    at = None if where is None else place_of(speaker, where)
    return ['Id: %d' % it for it in insert(speaker, [song], at)]


@command('clear')
def clear(speaker):
    speaker.player.delete(0, len(speaker.queue))


@command('delete', span)
def delete(speaker, part):
    speaker.player.delete(*whole(speaker, part))


@command('deleteid', number)
def deleteid(speaker, entry_id):
    place = known_id(speaker, entry_id)
    speaker.player.delete(place, place + 1)


@command('move', span, number)
def move(speaker, part, to):
    start, end = whole(speaker, part)
    if start == end:
        return
    if to > len(speaker.queue) - (end - start):
        raise bad_index()
    speaker.queue.move(start, end, to)


@command('moveid', number, number)
def moveid(speaker, entry_id, to):
    known_place(speaker, to)
    place = known_id(speaker, entry_id)
    speaker.queue.move(place, place + 1, to)


@command('swap', number, number)
def swap(speaker, one, other):
    speaker.queue.swap(known_place(speaker, one), known_place(speaker, other))


@command('swapid', number, number)
def swapid(speaker, one, other):
    speaker.queue.swap(known_id(speaker, one), known_id(speaker, other))


@command('shuffle', optional=[span])
def shuffle(speaker, part=None):
    speaker.order.shuffle(speaker.queue, *whole(speaker, part))


@command('prio', number_up_to(255), more=span)
def prio(speaker, priority, *parts):
    for start, end in [whole(speaker, part) for part in parts]:
        for place in range(start, end):
            speaker.queue.give_priority(place, priority)


@command('prioid', number_up_to(255), more=number)
def prioid(speaker, priority, *ids):
    for place in [known_id(speaker, entry_id) for entry_id in ids]:
        speaker.queue.give_priority(place, priority)


def shown_places(speaker, places):
    return [line for place in places for line in speaker.queue.lines(place, speaker.client.tags)]


@command('playlistinfo', optional=[span])
def playlistinfo(speaker, part=None):
    return shown_places(speaker, range(*whole(speaker, part)))


@command('playlistid', optional=[number])
def playlistid(speaker, entry_id=None):
    return shown_places(speaker, range(len(speaker.queue)) if entry_id is None else [known_id(speaker, entry_id)])


def changed_places(speaker, version, part):
    start, end = whole(speaker, part)
    return [place for place in speaker.queue.changed_since(version) if start <= place < end]


@command('plchanges', number, optional=[span])
def plchanges(speaker, version, part=None):
    return shown_places(speaker, changed_places(speaker, version, part))


@command('plchangesposid', number, optional=[span])
def plchangesposid(speaker, version, part=None):
    return [line for place in changed_places(speaker, version, part)
            for line in ('cpos: %d' % place, 'Id: %d' % speaker.queue.entries[place].id)]
