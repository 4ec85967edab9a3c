"""Values for random scripts: places, ids, URIs, filters and names, most of which make sense in the script so far.

Each method whose name is in capital letters draws a random value of that name, which is one word or several."""
from library import BY_NUMBER, EVERYDAY_TAGS, KNOWN_TAGS, TAGS, tags_of_songs
from world import SUBSYSTEMS

SONGS = ['a.wav', 'b.wav', 'c.wav', 'd', 'd/x.wav', 'd/y.wav', 'd/f/z.wav', 'e f.wav', 'é.wav', 'dd/x.wav', 'd//w.wav', "q'u.wav", 'B.WAV']
FRAMES = [1, 3, 4, 4, 8, 100, 500, 1000, 1024, 1025, 2000, 2048, 4000, 8000, 9000, 16000, 24001, 90000]
TEXTS = ['One', 'one', 'Two', 'Ann', 'Ann', 'Zoë', 'ZOË', "a'b", 'a"b', 'a\\b', 'straße', 'STRASSE', 'ﬁne', '10', '9', 'x y', 'İ', 'ab',
         'b']
SMALL_NUMBERS = ['1', '2', '2', '9', '9/12', '10', '10/12', '010', '2b', '0', 'A1', '-3', ' 4', '٣', '']
LARGE_NUMBERS = ['4294967294', '4294967295', '4294967296', '99999999999999999999', '00000000000004294967297', '5/6']
ODD_WORDS = ['', 'x', '-1', '+1', '01', '2:1', '1:2:3', ':', ':3', '4294967296', '4294967295', '0x1', '1.5', 'é', 'oneshot', 'a b',
             'window', '(', '1 ', '٣', '-', '+', '"', "'", '\\', 'group', 'sort', 'position', 'x' * 300, '0' * 5000]
OTHER_TAGS = [tag for tag in KNOWN_TAGS if tag not in EVERYDAY_TAGS]
STICKER_NAMES = ['r', 'r', 'q']


def quoted(rng, word):
    """The word as it is written in a line: in quotes if it needs them, and sometimes even if it does not."""
    needs = not word or any(it in '"\' \t' or it < ' ' for it in word)
    if needs or rng.random() < 0.04:
        return '"%s"' % word.replace('\\', '\\\\').replace('"', '\\"')
    return word


class Values:
    """Draws values for a client; for this it looks at the model, which has run the script so far."""

    def __init__(self, rng, script):
        self.rng, self.script = rng, script
        self.me = 1
        # One script uses few texts and tags, so that several songs have the same ones.
        self.texts = rng.sample(TEXTS, 4)
        self.numbered = rng.sample(rng.choice([SMALL_NUMBERS, SMALL_NUMBERS, LARGE_NUMBERS]), 4)
        self.base_tags, self.everyday_tags = rng.sample(TAGS, 3), [rng.choice(BY_NUMBER), *rng.sample(EVERYDAY_TAGS, 3)]

    @property
    def world(self):
        return self.script.daemon.world if self.script.daemon else None

    @property
    def everyday(self):
        return self.script.everyday

    @property
    def tags(self):
        return self.everyday_tags if self.everyday else self.base_tags

    def pick(self, *choices):
        return self.rng.choice(choices)

    def chance(self, likely):
        return self.rng.random() < likely

    def partition(self):
        """The partition that the client is in; None if there is no player yet."""
        if self.world is None:
            return None
        client = self.world.clients.get(self.me)
        return self.world.partitions[client.partition if client else 'default']

    def queue(self):
        return self.partition().queue if self.world else None

    def current(self):
        """The place of the current song in the queue, or None."""
        return self.queue().place_of(self.partition().player.current) if self.world else None

    def length(self):
        return len(self.queue() or ())

    # The queue.

    def PLACE(self):
        length = self.length()
        return str(max(0, self.pick(0, 0, 1, length - 1, length, length + 1, self.rng.randrange(length + 1))))

    def GOOD_PLACE(self):
        if self.current() is not None and self.chance(0.4):
            return str(self.current())
        return str(self.rng.randrange(max(1, self.length())))

    def ID(self):
        queue = self.queue()
        if not queue or self.chance(0.07):
            return str(self.pick(0, 1, queue.greatest_id + 1 if queue else 2))
        if self.current() is not None and self.chance(0.4):
            return str(self.partition().player.current)
        return str(self.rng.choice(queue.entries).id)

    def NEXT_ID(self):
        """The id of the entry that will be played next, if there is one."""
        following = self.partition().player.peek() if self.world else None
        return str(following.id) if following else self.ID()

    def range_up_to(self, length):
        if self.chance(0.3):
            return str(self.rng.randrange(length + 1))
        start, end = sorted(self.rng.randrange(length + 2) for _ in range(2))
        return '%d:%s' % (start, self.pick(end, end, '', 99))

    def RANGE(self):
        return self.range_up_to(self.length())

    def VERSION(self):
        queue = self.queue()
        version = queue.version if queue is not None else 1
        return str(max(0, version + self.pick(-3, -2, -2, -1, -1, -1, 0, 1, -version)))

    def POSITION(self):
        return self.pick(self.PLACE(), self.PLACE(), '+0', '-0', '+1', '-1', '+' + self.PLACE(), '-' + self.PLACE())

    def PRIORITY(self):
        return self.pick('0', '1', '7', '7', '255', '256')

    def TIME(self):
        return self.pick('0', '0.1', '0.5', '1', '1.5', '0.0015', '0.9', '0.999', '2', '2.95', '3', '0.125', '10.', '.5', '999999999',
                         '0.03749', '0.49')

    def SIGNED_TIME(self):
        return self.pick('+', '-') + self.TIME()

    # The library.

    def URI(self):
        songs = list(self.script.songs) or SONGS
        if self.chance(0.7):
            return self.rng.choice(songs)
        return self.pick('d', 'd/', 'd/f', '', '', '/', 'nosuch', 'a.wav/', 'd//', 'dd', 'a.wav//', 'D', *songs)

    def TAG(self):
        tag = self.rng.choice(OTHER_TAGS if self.chance(0.05) else self.tags if self.chance(0.8) else EVERYDAY_TAGS)
        return self.pick(tag, tag, tag.lower(), tag.upper())

    def KNOWN_TAG(self):
        others = [*EVERYDAY_TAGS, 'AlbumArtist', 'ArtistSort', 'AlbumSort', 'AlbumArtistSort', self.rng.choice(OTHER_TAGS), 'Nosuch']
        tag = self.rng.choice(self.tags if self.chance(0.6) else others)
        return self.pick(tag, tag, tag.lower(), tag.upper())

    def kind(self):
        if self.chance(0.7):
            return self.KNOWN_TAG() if self.everyday else self.TAG()
        return self.pick('file', 'any', 'any', 'base', 'FILE', 'Any', 'filename', 'foo')

    def TEXT(self):
        songs = [text for song in self.script.songs.values() for _, text in song.tags]
        if self.chance(0.6):
            return self.rng.choice(songs or self.texts)
        return self.pick(*self.texts, *self.texts, self.rng.choice(TEXTS), '', 'a.wav', 'd', 'd/x.wav', 'd/', 'wav')

    def SONG_TAG(self):
        """A tag of a song, with its text; in the base profile it is sometimes one that only the other has."""
        tag = self.rng.choice(self.tags if self.chance(0.8) else tags_of_songs(self.everyday))
        if not self.everyday and self.chance(0.01):
            tag = self.rng.choice(EVERYDAY_TAGS)
        text = self.rng.choice(self.numbered if tag in BY_NUMBER and self.chance(0.8) else self.texts)
        return '%s=%s' % (self.pick(tag, tag, tag, tag.lower()), text)

    def string(self):
        """A text as it is written in a filter."""
        quote = self.pick('"', "'")
        return quote + ''.join('\\' + it if it in '"\'\\' or self.chance(0.02) else it for it in self.TEXT()) + quote

    def spaces(self, least):
        return ' ' * self.pick(least, least, least, 1, 1, 2)

    def expression(self, depth=0):
        """A filter in parentheses."""
        which = self.rng.random()
        if depth < 3 and which < 0.2:
            inner = '!' + self.expression(depth + 1)
        elif depth < 3 and which < 0.45:
            inner = self.pick(' AND ', ' AND ', '  AND  ').join(self.expression(depth + 1) for _ in range(self.pick(1, 2, 2, 3)))
        elif which < 0.55:
            inner = self.pick('base', 'base', 'BASE') + self.spaces(1) + self.string()
        else:
            inner = self.kind() + self.spaces(0) + self.pick('==', '!=', ' contains ') + self.spaces(0) + self.string()
        if self.chance(0.08):
            inner = ' ' + inner + ' '
        return '(%s)' % inner

    def broken(self, text):
        """The text with one character removed, inserted or changed, or without its end."""
        at = self.rng.randrange(len(text) + 1)
        quotes = [place + 1 for place, it in enumerate(text) if it in '"\'\\']
        if quotes and self.chance(0.5):
            at = self.rng.choice(quotes)
        change = self.rng.randrange(4)
        if change == 0:
            return text[:at]
        if change == 1:
            return text[:at] + text[at + 1:]
        return text[:at] + self.rng.choice(' ()\'"=!AcAN\\é_x') + text[at + (change == 3):]

    def FILTER(self):
        if self.chance(0.5):
            expression = self.expression()
            return [self.broken(expression) if self.chance(0.2) else expression]
        return [word for _ in range(self.pick(1, 1, 1, 2)) for word in (self.kind(), self.TEXT())]

    def ALL_SONGS(self):
        """A filter that all songs meet."""
        return self.pick(["(base '')"], ["(file != 'nosuch')"], ['base', ''], ["(any != 'nobody')"])

    def WINDOW(self):
        return ['window', self.pick('0:1', '1:2', '0:0', '5:9', '0:9', '0:9', '2:1', '1:', '2')]

    def SORT(self):
        return ['sort', self.pick('', '', '-') + (self.everyday_tags[0] if self.chance(0.4) else self.KNOWN_TAG())]

    def GROUP(self):
        return ['group', self.KNOWN_TAG()]

    def AT(self):
        return ['position', self.POSITION()]

    def OPTIONS(self):
        """One or two options, in any order."""
        chosen = self.rng.sample([self.SORT, self.WINDOW, self.GROUP, self.AT], self.pick(1, 2))
        return [word for option in chosen for word in option()]

    # Stored playlists and stickers.

    def LIST(self):
        known = list(self.world.shelf.lists) if self.world else []
        if known and self.chance(0.6):
            return self.rng.choice(known)
        return self.pick('x', 'x', 'y', 'evening', 'a b', 'é', *(['a/b', ''] if self.chance(0.2) else []))

    def NEW_LIST(self):
        return self.pick('x', 'y', 'z', 'new', 'a b')

    def LIST_PLACE(self):
        return self.pick('0', '0', '1', '1', '2', '3', '4')

    def LIST_RANGE(self):
        return self.range_up_to(self.pick(1, 2, 3, 5))

    def STICKER(self):
        return self.pick('a=b', '') if self.chance(0.03) else self.rng.choice(STICKER_NAMES)

    def STICKER_TEXT(self):
        return self.pick('5', '50', '6', '', 'a=b', 'late night', 'é', '05')

    def STICKER_ACTION(self):
        return self.pick('get', 'get', 'delete')

    def STICKER_TARGET(self):
        """The target of a sticker, mostly of one that exists."""
        stickers = list(self.world.shelf.stickers) if self.world else []
        if stickers and self.chance(0.7):
            return list(self.rng.choice(stickers)[:2])
        return self.pick(['song', self.URI()], ['playlist', self.LIST()])

    def TARGET_OR_ALL(self):
        return self.pick('', '', '', self.URI(), self.LIST())

    # Clients.

    def CHANNEL(self):
        return self.pick('a b', 'é', '') if self.chance(0.03) else self.pick('x', 'x', 'news', 'a:1')

    def MESSAGE(self):
        return self.pick('hi', 'ho', '', 'a b')

    def PARTITION(self):
        return self.pick('nosuch', 'a b', '') if self.chance(0.06) else self.pick('default', 'k', 'k', 'kitchen')

    def SUBSYSTEM(self):
        return self.pick(*SUBSYSTEMS, *(('neighbor', 'mount') if self.everyday else ()))

    def ODD(self):
        return self.rng.choice(ODD_WORDS)

    def BROKEN(self):
        """A line whose words may be hard to separate, as one word that is not put in quotes."""
        return [self.broken(self.pick('add "a.wav"', '"add" a.wav', 'find artist "x y"', "add 'a", 'add "a\\"b" "', 'ping "" x'))]

    def MANY_WORDS(self):
        return ['w'] * self.pick(1, 63, 64, 65)
