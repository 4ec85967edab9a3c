"""Commands that search for songs, and the scan."""
from commands import WrongNumber, command
from filters import found, is_filter
from library import TAGS, playtime, tag_named
from queue_commands import insert
from words import NOT_THERE, UPDATING, Ack, bad_argument, uri, window


def filter_words(arguments):
    """Reads arguments that are just a filter."""
    if not is_filter(arguments):
        raise WrongNumber()
    return [arguments]


def filter_and_window(arguments):
    """Reads a filter, and perhaps a window after it."""
    part = None
    if arguments[:1] and arguments[0].startswith('(') and len(arguments) == 3:
        if arguments[1] != 'window':
            raise bad_argument(arguments[1])
        arguments, part = arguments[:1], arguments[2]
    elif len(arguments) >= 4 and len(arguments) % 2 == 0 and arguments[-2] == 'window':
        arguments, part = arguments[:-2], arguments[-1]
    if not is_filter(arguments):
        raise WrongNumber()
    return [arguments, None if part is None else window(part)]


def one_tag(word, tags=TAGS):
    tag = tag_named(word, tags)
    if tag is None:
        raise bad_argument(word)
    return tag


def tag_and_filter(arguments):
    if not arguments or (arguments[1:] and not is_filter(arguments[1:])):
        raise WrongNumber()
    return [one_tag(arguments[0]), arguments[1:]]


def meeting(speaker, words, blind=False):
    return found(speaker.library.songs, words, speaker.world.everyday, blind)


def cut(songs, part):
    """The songs in a window, which may reach beyond the end."""
    return songs[part.start:part.end] if part else songs


def song_lines(speaker, songs):
    return [line for song in songs for line in song.lines(speaker.client.tags)]


@command('find', read=filter_and_window)
def find(speaker, words, part):
    return song_lines(speaker, cut(meeting(speaker, words), part))


@command('search', read=filter_and_window)
def search(speaker, words, part):
    return song_lines(speaker, cut(meeting(speaker, words, blind=True), part))


@command('findadd', read=filter_words)
def findadd(speaker, words):
    insert(speaker, meeting(speaker, words))


@command('searchadd', read=filter_words)
def searchadd(speaker, words):
    insert(speaker, meeting(speaker, words, blind=True))


@command('list', read=tag_and_filter)
def list_texts(speaker, tag, words):
    songs = meeting(speaker, words) if words else speaker.library.songs
    return ['%s: %s' % (tag, text) for text in sorted({song.text(tag) for song in songs} - {''})]


def count_lines(songs):
    return ['songs: %d' % len(songs), 'playtime: %d' % playtime(songs)]


@command('count', read=filter_words)
def count(speaker, words):
    return count_lines(meeting(speaker, words))


def no_such_directory():
    return Ack(NOT_THERE, 'no such directory')


def folder_named(speaker, name):
    if not speaker.library.is_folder(name):
        raise no_such_directory()
    return name


@command('lsinfo', optional=[uri])
def lsinfo(speaker, name=''):
    song = speaker.library.song(name)
    if song:
        return song_lines(speaker, [song])
    folders, songs = speaker.library.direct(folder_named(speaker, name))
    return ['directory: ' + folder for folder in folders] + song_lines(speaker, songs)


@command('listall', optional=[uri])
def listall(speaker, name=''):
    return ['file: ' + song.uri for song in speaker.library.under(folder_named(speaker, name))]


def begin_scan(speaker, _=''):
    if speaker.world.scan is not None:
        raise Ack(UPDATING, 'already updating')
    speaker.world.scans = speaker.world.one_more(speaker.world.scans)
    speaker.world.scan = speaker.world.scans
    return ['updating_db: %d' % speaker.world.scan]


command('update', optional=[uri])(begin_scan)
command('rescan', optional=[uri])(begin_scan)
