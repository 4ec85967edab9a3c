"""The shelf, which is the store of playlists, and of stickers of songs and of stored playlists."""
from words import EXISTS, FULL, NOT_THERE, Ack, bad_name

LONGEST_LIST = 16384
LONGEST_NAME = 255


def list_name(word):
    """A name of a stored playlist, or a refusal."""
    if not 1 <= len(word.encode()) <= LONGEST_NAME or '/' in word or any(it < ' ' for it in word):
        raise bad_name(word)
    return word


def sticker_name(word):
    if not word or '=' in word:
        raise bad_name(word)
    return word


def no_such_playlist():
    return Ack(NOT_THERE, 'no such playlist')


class Shelf:
    def __init__(self):
        self.lists = {}
        self.stickers = {}

    def list(self, name):
        if name not in self.lists:
            raise no_such_playlist()
        return self.lists[name]

    def save(self, name, uris):
        if name in self.lists:
            raise Ack(EXISTS, 'playlist exists')
        self.lists[name] = tuple(uris)

    def append(self, name, uris):
        """Adds songs to a list, which is made if it does not exist."""
        longer = self.lists.get(name, ()) + tuple(uris)
        if len(longer) > LONGEST_LIST:
            raise Ack(FULL, 'playlist is full')
        self.lists[name] = longer

    def replace(self, name, uris):
        self.lists[name] = tuple(uris)

    def rename(self, name, new):
        """Renames a list; its stickers go with it."""
        self.list(name)
        if new in self.lists:
            raise Ack(EXISTS, 'playlist exists')
        self.lists[new] = self.lists.pop(name)
        for kind, target, sticker in list(self.stickers):
            if (kind, target) == ('playlist', name):
                self.stickers[kind, new, sticker] = self.stickers.pop((kind, target, sticker))

    def remove(self, name):
        """Removes a list, and its stickers."""
        self.list(name)
        del self.lists[name]
        self.drop_stickers('playlist', name)

    def stickers_of(self, kind, target):
        """The names and values of a target's stickers, in the order of the names."""
        return sorted((name, value) for (a, b, name), value in self.stickers.items() if (a, b) == (kind, target))

    def drop_stickers(self, kind, target):
        for name, _ in self.stickers_of(kind, target):
            del self.stickers[kind, target, name]
