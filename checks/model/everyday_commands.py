"""The commands that the everyday profile adds, and those that it changes."""
from client_commands import idle, subsystem_names, tagtypes
from commands import WrongNumber, everyday
from filters import found, is_filter
from library import EVERYDAY_TAGS, KNOWN_TAGS, RATE, playtime, tag_named
from library_commands import (count_lines, cut, filter_words, folder_named, listall, lsinfo, meeting,
                              one_tag, song_lines)
from playback_commands import play, playid
from queue_commands import insert, place_of, shown_places, song_named, songs_named
from shelf import list_name
from shelf_commands import listed_songs, listplaylists
from words import NOT_THERE, Ack, bad_argument, number, number_up_to, one_of, position, signed, span, text, uri, window
from world import SUBSYSTEMS

everyday('idle', read=subsystem_names(SUBSYSTEMS + ('neighbor', 'mount')))(idle)


def known_tag(word):
    return one_tag(word, KNOWN_TAGS)


# Options at the end of a command.

def taken(arguments, option, least):
    """The arguments without the option at their end, and the option's value; at least so many words must be left in front of the option."""
    if len(arguments) >= least + 2 and arguments[-2] == option:
        return arguments[:-2], arguments[-1]
    return arguments, None


class Selection:
    """A filter, the order of the songs that it finds, and the part of them that is chosen."""

    def __init__(self, arguments):
        arguments, self.window = taken(arguments, 'window', 1)
        self.words, self.sort = taken(arguments, 'sort', 1)
        if not is_filter(self.words):
            raise WrongNumber()

    def read_options(self):
        """Reads the options, from left to right."""
        self.tag, self.falling = None, False
        if self.sort is not None:
            self.falling = self.sort.startswith('-')
            self.tag = tag_named(self.sort[1:] if self.falling else self.sort, KNOWN_TAGS)
            if self.tag is None:
                raise bad_argument(self.sort)
        self.part = None if self.window is None else window(self.window)
        return self

    def songs(self, speaker, blind):
        songs = meeting(speaker, self.words, blind)
        if self.tag is not None:
            songs.sort(key=lambda song: song.key(self.tag), reverse=self.falling)
        return cut(songs, self.part)


def selection(arguments):
    return [Selection(arguments).read_options()]


def selection_and_position(arguments):
    arguments, where = taken(arguments, 'position', 1)
    found_selection = Selection(arguments).read_options()
    return [found_selection, None if where is None else position(where)]


def name_and_selection(arguments):
    if not arguments:
        raise WrongNumber()
    return [arguments[0], Selection(arguments[1:]).read_options()]


@everyday('find', read=selection)
def find(speaker, wanted):
    return song_lines(speaker, wanted.songs(speaker, blind=False))


@everyday('search', read=selection)
def search(speaker, wanted):
    return song_lines(speaker, wanted.songs(speaker, blind=True))


def insert_there(speaker, songs, where):
    insert(speaker, songs, None if where is None else place_of(speaker, where))


@everyday('add', uri, optional=[position])
def add(speaker, name, where=None):
    insert_there(speaker, songs_named(speaker, name), where)


@everyday('findadd', read=selection_and_position)
def findadd(speaker, wanted, where):
    insert_there(speaker, wanted.songs(speaker, blind=False), where)


@everyday('searchadd', read=selection_and_position)
def searchadd(speaker, wanted, where):
    insert_there(speaker, wanted.songs(speaker, blind=True), where)


@everyday('load', text, optional=[span, position])
def load(speaker, name, part=None, where=None):
    uris = speaker.shelf.list(list_name(name))
    start, end = part.within(len(uris)) if part else (0, len(uris))
    insert_there(speaker, listed_songs(speaker, uris[start:end]), where)


@everyday('searchaddpl', read=name_and_selection)
def searchaddpl(speaker, name, wanted):
    list_name(name)
    songs = wanted.songs(speaker, blind=True)
    if songs:
        speaker.shelf.append(name, [song.uri for song in songs])


# Lists and counts by tags.

def list_words(arguments):
    """A tag, perhaps a filter, and groups."""
    if not arguments:
        raise WrongNumber()
    tag_word, rest, groups = arguments[0], arguments[1:], []
    group = ''
    while group is not None:
        rest, group = taken(rest, 'group', 0)
        groups = groups if group is None else [group, *groups]
    if len(rest) == 1 and tag_named(tag_word) == 'Album' and not groups and not rest[0].startswith('('):
        rest = ['Artist', *rest]
    if rest and not is_filter(rest):
        raise WrongNumber()
    tags = [known_tag(tag_word)]
    for word in groups:
        if known_tag(word) in tags:
            raise bad_argument(word)
        tags.append(known_tag(word))
    return [tags, rest]


@everyday('list', read=list_words)
def list_texts(speaker, tags, words):
    """The texts of the first tag, for each combination of texts of the other tags; the last group is the outermost."""
    songs = meeting(speaker, words) if words else speaker.library.songs
    tags = tags[::-1]
    tuples = sorted({tuple(song.text(tag) for tag in tags) for song in songs})
    lines, shown = [], None
    for texts in tuples:
        if not texts[-1]:
            continue
        same = 0
        while shown and same < len(texts) - 1 and texts[same] == shown[same]:
            same += 1
        lines += ['%s: %s' % it for it in list(zip(tags, texts))[same:]]
        shown = texts
    return lines


def count_words(arguments):
    rest, group = taken(arguments, 'group', 0)
    if not (is_filter(rest) or (not rest and group is not None)):
        raise WrongNumber()
    return [rest, None if group is None else known_tag(group)]


@everyday('count', read=count_words)
def count(speaker, words, tag):
    songs = meeting(speaker, words) if words else speaker.library.songs
    if tag is None:
        return count_lines(songs)
    lines = []
    for it in sorted({song.text(tag) for song in songs}):
        lines += ['%s: %s' % (tag, it), *count_lines([song for song in songs if song.text(tag) == it])]
    return lines


# Songs by their URIs.

@everyday('listall', optional=[uri])
def list_files(speaker, name=''):
    song = speaker.library.song(name)
    return ['file: ' + song.uri] if song else listall(speaker, name)


@everyday('listallinfo', optional=[uri])
def listallinfo(speaker, name=''):
    song = speaker.library.song(name)
    return song_lines(speaker, [song] if song else speaker.library.under(folder_named(speaker, name)))


@everyday('lsinfo', optional=[uri])
def list_folder(speaker, name=''):
    return lsinfo(speaker, name) + ([] if name else listplaylists(speaker))


@everyday('playlist')
def playlist(speaker):
    return ['%d:file: %s' % (place, entry.song.uri) for place, entry in enumerate(speaker.queue.entries)]


def entries_meeting(speaker, words, blind):
    wanted = set(found({entry.song for entry in speaker.queue.entries}, words, True, blind))
    return shown_places(speaker, [place for place, entry in enumerate(speaker.queue.entries) if entry.song in wanted])


@everyday('playlistfind', read=filter_words)
def playlistfind(speaker, words):
    return entries_meeting(speaker, words, blind=False)


@everyday('playlistsearch', read=filter_words)
def playlistsearch(speaker, words):
    return entries_meeting(speaker, words, blind=True)


@everyday('albumart', uri, number)
def albumart(speaker, name, _):
    song_named(speaker, name)
    raise Ack(NOT_THERE, 'no picture')


@everyday('readpicture', uri, number)
def readpicture(speaker, name, _):
    song_named(speaker, name)


@everyday('readcomments', uri)
def readcomments(speaker, name):
    song_named(speaker, name)


# The tags that a client sees.

def tagtypes_words(arguments):
    if not arguments:
        return []
    action, *rest = arguments
    one_of('clear', 'all', 'enable', 'disable')(action)
    if (action in ('clear', 'all')) == bool(rest):
        raise WrongNumber()
    return [action, [known_tag(word) for word in rest]]


@everyday('tagtypes', read=tagtypes_words)
def choose_tags(speaker, action=None, chosen=()):
    if action is None:
        return tagtypes(speaker)
    chosen, every = set(chosen) & set(EVERYDAY_TAGS), set(EVERYDAY_TAGS)
    shown = speaker.client.tags
    speaker.client.tags = {'clear': set(), 'all': every, 'enable': shown | chosen, 'disable': shown - chosen}[action]
    return []


# What the daemon has, and what it does not have.

@everyday('stats')
def stats(speaker):
    songs = speaker.library.songs
    texts = {tag: {song.text(tag) for song in songs} - {''} for tag in ('Artist', 'Album')}
    return ['playtime: %d' % (speaker.player.frames_played // RATE), 'artists: %d' % len(texts['Artist']),
            'albums: %d' % len(texts['Album']), 'songs: %d' % len(songs), 'db_playtime: %d' % playtime(songs), 'db_update: 0']


@everyday('decoders')
def decoders(speaker):
    return ['plugin: wave', 'suffix: wav', 'mime_type: audio/wav', 'mime_type: audio/x-wav']


@everyday('urlhandlers')
def urlhandlers(speaker):
    return []


@everyday('listmounts')
def listmounts(speaker):
    return ['mount: ']


@everyday('replay_gain_status')
def replay_gain_status(speaker):
    return ['replay_gain_mode: off']


@everyday('replay_gain_mode', one_of('off'))
def replay_gain_mode(speaker, mode):
    return []


@everyday('volume', signed(number_up_to(100)))
def volume(speaker, change):
    sign, amount = change
    speaker.player.volume = min(100, max(0, speaker.player.volume + (-amount if sign == '-' else amount)))


def number_or_minus_one(word):
    return None if word == '-1' else number(word)


everyday('play', optional=[number_or_minus_one])(play)
everyday('playid', optional=[number_or_minus_one])(playid)
