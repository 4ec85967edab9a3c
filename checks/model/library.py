"""Songs, the folders that they are in, and the lines that show a song."""
import re
from dataclasses import dataclass

RATE = 8000
# The tags of songs without the everyday profile, and with it.
TAGS = ('Title', 'Artist', 'Album', 'Date', 'Genre', 'Comment')
EVERYDAY_TAGS = TAGS + ('AlbumArtist', 'Track', 'Disc', 'Composer')
LONGEST_TEXT = 1024

# The tags that the reference names; songs have texts only for those in EVERYDAY_TAGS.
KNOWN_TAGS = ('Artist', 'ArtistSort', 'Album', 'AlbumSort', 'AlbumArtist', 'AlbumArtistSort', 'Title', 'Track', 'Name', 'Genre', 'Date',
              'OriginalDate', 'Composer', 'ComposerSort', 'Performer', 'Conductor', 'Work', 'Ensemble', 'Movement', 'MovementNumber',
              'Location', 'Grouping', 'Comment', 'Disc', 'Label', 'MUSICBRAINZ_ARTISTID', 'MUSICBRAINZ_ALBUMID',
              'MUSICBRAINZ_ALBUMARTISTID', 'MUSICBRAINZ_TRACKID', 'MUSICBRAINZ_RELEASETRACKID', 'MUSICBRAINZ_WORKID')
READ_AS = {'ArtistSort': 'Artist', 'AlbumArtistSort': 'AlbumArtist', 'AlbumSort': 'Album'}
# The tag that is read where a song does not have the first.
FALLS_BACK = {'AlbumArtist': 'Artist'}
# The tags that are sorted by the number at the beginning of their texts, and the greatest such number.
BY_NUMBER = ('Track', 'Disc')
GREATEST_IN_TEXT = 4294967295


def tags_of_songs(everyday):
    """The tags that songs have in this profile, in the order in which they are shown."""
    return EVERYDAY_TAGS if everyday else TAGS


def ascii_lower(word):
    """The word with its ASCII letters in lower case, and all others as they are."""
    return ''.join(it.lower() if it.isascii() else it for it in word)


def tag_named(word, names=TAGS):
    """The tag of this name, in any ASCII case, as it is written in `names`; None if there is no such tag."""
    for name in names:
        if name.lower() == ascii_lower(word):
            return name
    return None


def tag_text(value):
    """A tag's text as it would be read from a WAVE file; None if it would be skipped."""
    value = value.partition('\0')[0]
    if not value or len(value.encode()) > LONGEST_TEXT or any(it < ' ' for it in value):
        return None
    return value


def leading_number(text):
    """The number that the first ASCII digits of a text are, or the greatest if it is above that; 0 if the text begins with none."""
    return min(int(re.match('[0-9]*', text)[0] or '0'), GREATEST_IN_TEXT)


def seconds(milliseconds):
    return '%d.%03d' % divmod(milliseconds, 1000)


def whole_seconds(milliseconds):
    """Rounds to whole seconds; a half is rounded up."""
    return (milliseconds + 500) // 1000


def milliseconds_of(frames):
    return frames * 1000 // RATE


@dataclass(frozen=True)
class Song:
    uri: str
    frames: int
    tags: tuple = ()

    @property
    def milliseconds(self):
        return milliseconds_of(self.frames)

    def text(self, tag):
        """The text by which a song is found and sorted for a known tag; it is empty if the song has none."""
        own, tag = dict(self.tags), READ_AS.get(tag, tag)
        return own.get(tag) or own.get(FALLS_BACK.get(tag), '')

    def key(self, tag):
        """What the song is sorted by for a known tag: the number with which the text begins, or the text itself."""
        return leading_number(self.text(tag)) if tag in BY_NUMBER else self.text(tag)

    def lines(self, shown=EVERYDAY_TAGS):
        """The lines that show the song, with only those of its own tags that are in `shown`."""
        own = dict(self.tags)
        tags = ['%s: %s' % (tag, own[tag]) for tag in EVERYDAY_TAGS if tag in shown and tag in own]
        return ['file: ' + self.uri, *tags, 'Time: %d' % whole_seconds(self.milliseconds), 'duration: ' + seconds(self.milliseconds)]


def playtime(songs):
    """How many seconds these songs last together, rounded down."""
    return sum(song.milliseconds for song in songs) // 1000


class Library:
    """All songs, in the byte order of their URIs, which is also the order of their characters."""

    def __init__(self, songs):
        self.songs = tuple(sorted(songs, key=lambda song: song.uri))
        self.by_uri = {song.uri: song for song in self.songs}

    def song(self, uri):
        return self.by_uri.get(uri)

    def under(self, folder):
        """All songs below a folder; the empty name means the whole library."""
        return [song for song in self.songs if lies_under(song, folder)]

    def is_folder(self, uri):
        return not uri or bool(self.under(uri))

    def songs_of(self, uri):
        """The song of this name, or the songs of the folder of this name; None if there is neither."""
        if self.song(uri):
            return [self.song(uri)]
        return self.under(uri) if self.is_folder(uri) else None

    def direct(self, folder):
        """The folders and the songs that are directly in this folder."""
        front = folder + '/' if folder else ''
        folders, songs = set(), []
        for song in self.under(folder):
            name, slash, _ = song.uri[len(front):].partition('/')
            if slash:
                folders.add(front + name)
            else:
                songs.append(song)
        return sorted(folders), songs


def lies_under(song, folder):
    return not folder or song.uri.startswith(folder + '/')
