"""Commands for stored playlists and stickers."""
from commands import WrongNumber, command
from queue_commands import insert, no_such_song, song_named, songs_named
from shelf import list_name, no_such_playlist, sticker_name
from words import NOT_THERE, Ack, bad_argument, bad_index, number, one_of, span, text, uri


@command('save', text)
def save(speaker, name):
    speaker.shelf.save(list_name(name), [entry.song.uri for entry in speaker.queue.entries])


def listed_songs(speaker, uris):
    """Those songs of a stored playlist that are in the library."""
    return [song for song in map(speaker.library.song, uris) if song]


@command('load', text, optional=[span])
def load(speaker, name, part=None):
    uris = speaker.shelf.list(list_name(name))
    start, end = part.within(len(uris)) if part else (0, len(uris))
    insert(speaker, listed_songs(speaker, uris[start:end]))


@command('listplaylist', text)
def listplaylist(speaker, name):
    return ['file: ' + it for it in speaker.shelf.list(list_name(name))]


@command('listplaylistinfo', text)
def listplaylistinfo(speaker, name):
    lines = []
    for it in speaker.shelf.list(list_name(name)):
        song = speaker.library.song(it)
        lines += song.lines(speaker.client.tags) if song else ['file: ' + it]
    return lines


@command('listplaylists')
def listplaylists(speaker):
    return ['playlist: ' + name for name in sorted(speaker.shelf.lists)]


@command('playlistadd', text, uri)
def playlistadd(speaker, name, song_uri):
    list_name(name)
    speaker.shelf.append(name, [song.uri for song in songs_named(speaker, song_uri)])


@command('playlistclear', text)
def playlistclear(speaker, name):
    speaker.shelf.list(list_name(name))
    speaker.shelf.replace(name, [])


@command('rm', text)
def rm(speaker, name):
    speaker.shelf.remove(list_name(name))


def entry_taken(uris, place):
    """A stored playlist without the entry at a place, and the entry that was there."""
    if place >= len(uris):
        raise bad_index()
    return list(uris[:place] + uris[place + 1:]), uris[place]


@command('playlistdelete', text, number)
def playlistdelete(speaker, name, place):
    rest, _ = entry_taken(speaker.shelf.list(list_name(name)), place)
    speaker.shelf.replace(name, rest)


@command('playlistmove', text, number, number)
def playlistmove(speaker, name, place, to):
    uris = speaker.shelf.list(list_name(name))
    rest, moved = entry_taken(uris, place)
    if to >= len(uris):
        raise bad_index()
    rest.insert(to, moved)
    speaker.shelf.replace(name, rest)


@command('rename', text, text)
def rename(speaker, name, new):
    list_name(name)
    speaker.shelf.rename(name, list_name(new))


# Stickers: each action, and how many arguments it may have.
STICKER_ARGUMENTS = {'get': (4,), 'set': (5,), 'delete': (3, 4), 'list': (3,), 'find': (4, 6)}


def sticker_words(arguments):
    if len(arguments) not in STICKER_ARGUMENTS.get(arguments[0] if arguments else '', (3, 4, 5, 6)):
        raise WrongNumber()
    action, kind, *rest = arguments
    one_of(*STICKER_ARGUMENTS)(action)
    one_of('song', 'playlist')(kind)
    if len(arguments) == 6 and rest[2] not in ('=', '<', '>'):
        raise bad_argument(rest[2])
    return [action, kind, *rest]


def sticker_target(speaker, kind, name):
    """The song or the stored playlist that a sticker belongs to."""
    if kind == 'song':
        return song_named(speaker, uri(name)).uri
    speaker.shelf.list(list_name(name))
    return name


@command('sticker', read=sticker_words)
def sticker(speaker, action, kind, name, *rest):
    if action == 'find':
        return find_stickers(speaker, kind, name, *rest)
    target = sticker_target(speaker, kind, name)
    if action == 'list':
        return ['sticker: %s=%s' % it for it in speaker.shelf.stickers_of(kind, target)]
    if action == 'delete' and not rest:
        if not speaker.shelf.stickers_of(kind, target):
            raise Ack(NOT_THERE, 'no such sticker')
        return speaker.shelf.drop_stickers(kind, target)
    key = kind, target, sticker_name(rest[0])
    if action == 'set':
        speaker.shelf.stickers[key] = rest[1]
        return []
    if key not in speaker.shelf.stickers:
        raise Ack(NOT_THERE, 'no such sticker')
    if action == 'get':
        return ['sticker: %s=%s' % (rest[0], speaker.shelf.stickers[key])]
    del speaker.shelf.stickers[key]
    return []


def sticker_targets(speaker, kind, name):
    """The songs or playlists whose stickers are searched."""
    if kind == 'song':
        songs = speaker.library.songs_of(uri(name))
        if songs is None:
            raise no_such_song()
        return [song.uri for song in songs]
    if not name:
        return sorted(speaker.shelf.lists)
    if list_name(name) not in speaker.shelf.lists:
        raise no_such_playlist()
    return [name]


def find_stickers(speaker, kind, name, sticker_named, relation=None, wanted=None):
    targets = sticker_targets(speaker, kind, name)
    sticker_name(sticker_named)
    meets = {None: lambda value: True, '=': lambda value: value == wanted, '<': lambda value: value < wanted,
             '>': lambda value: value > wanted}
    lines = []
    for target in targets:
        value = speaker.shelf.stickers.get((kind, target, sticker_named))
        if value is not None and meets[relation](value):
            lines += ['%s: %s' % ('file' if kind == 'song' else 'playlist', target), 'sticker: %s=%s' % (sticker_named, value)]
    return lines
