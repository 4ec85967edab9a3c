"""Filters: how they are read, at which byte a bad one goes wrong, and which songs they accept."""
import re

from library import KNOWN_TAGS, TAGS, ascii_lower, lies_under, tag_named, tags_of_songs
from words import ARGUMENT, Ack

DEEPEST = 32


def unknown_tag(word):
    return Ack(ARGUMENT, 'unknown tag "%s"' % word)


def texts_named(word, everyday):
    """What the type in a filter refers to: `file`, `any`, `base` or a tag; None if there is no such type."""
    small = ascii_lower(word)
    if small in ('file', 'any', 'base'):
        return small
    if everyday and small == 'filename':
        return 'file'
    return tag_named(word, KNOWN_TAGS if everyday else TAGS)


class Comparison:
    """A text of the song has this relation to the given text; with the type `any`, at least one of these tags has it."""

    def __init__(self, kind, relation, text, any_of):
        self.kind, self.relation, self.text, self.any_of = kind, relation, text, any_of

    def holds(self, song, fold):
        if self.relation == '!=':
            return not Comparison(self.kind, '==', self.text, self.any_of).holds(song, fold)
        wanted = fold(self.text)
        if self.relation == '==':
            return any(fold(text) == wanted for text in self.texts(song))
        return any(wanted in fold(text) for text in self.texts(song))

    def texts(self, song):
        if self.kind == 'file':
            return [song.uri]
        return [song.text(tag) for tag in (self.any_of if self.kind == 'any' else [self.kind])]


class Base:
    """The song is in a folder, or in one below it."""

    def __init__(self, folder):
        self.folder = folder

    def holds(self, song, fold):
        return lies_under(song, self.folder)


class Not:
    def __init__(self, inner):
        self.inner = inner

    def holds(self, song, fold):
        return not self.inner.holds(song, fold)


class All:
    def __init__(self, members):
        self.members = members

    def holds(self, song, fold):
        return all(member.holds(song, fold) for member in self.members)


class Reader:
    """Reads a filter from left to right. It reports the first character with which no filter could go on."""

    def __init__(self, text, everyday):
        self.text, self.everyday, self.any_of = text, everyday, tags_of_songs(everyday)
        self.at = self.depth = 0

    def fault(self):
        return Ack(ARGUMENT, 'bad filter at byte %d' % len(self.text[:self.at].encode()))

    def next(self):
        return self.text[self.at:self.at + 1]

    def take(self, wanted):
        """Reads exactly these characters."""
        for character in wanted:
            if self.next() != character:
                raise self.fault()
            self.at += 1

    def spaces(self):
        """Reads spaces, and returns how many there were."""
        begin = self.at
        while self.next() == ' ':
            self.at += 1
        return self.at - begin

    def some_spaces(self):
        self.take(' ')
        self.spaces()

    def whole(self):
        found = self.parenthesis()
        if self.at < len(self.text):
            raise self.fault()
        return found

    def parenthesis(self):
        if self.next() == '(' and self.depth == DEEPEST:
            raise Ack(ARGUMENT, 'filter too deep')
        self.take('(')
        self.depth += 1
        self.spaces()
        if self.next() == '(':
            found = self.conjunction()
        elif self.next() == '!':
            self.take('!')
            found = Not(self.parenthesis())
            self.spaces()
            self.take(')')
        else:
            found = self.comparison()
            self.spaces()
            self.take(')')
        self.depth -= 1
        return found

    def conjunction(self):
        """Reads filters with AND between them, and the closing parenthesis."""
        members = [self.parenthesis()]
        while self.spaces() and self.next() != ')':
            self.take('AND')
            self.some_spaces()
            members.append(self.parenthesis())
        self.take(')')
        return All(members)

    def comparison(self):
        word = re.compile('[A-Za-z_]*' if self.everyday else '[A-Za-z]*').match(self.text, self.at)[0]
        if not word:
            raise self.fault()
        self.at += len(word)
        kind = texts_named(word, self.everyday)
        if kind is None:
            raise unknown_tag(word)
        if kind == 'base':
            self.some_spaces()
            return Base(self.string())
        apart = self.spaces()
        if apart and self.next() == 'c':
            self.take('contains')
            self.some_spaces()
            return Comparison(kind, 'contains', self.string(), self.any_of)
        relation = '!=' if self.next() == '!' else '=='
        self.take(relation)
        self.spaces()
        return Comparison(kind, relation, self.string(), self.any_of)

    def string(self):
        """Reads a text in either kind of quotes; after a backslash any character stands for itself."""
        quote = self.next()
        if quote not in ('"', "'") or not quote:
            raise self.fault()
        self.at += 1
        found = []
        while self.next() != quote:
            if self.next() == '\\':
                self.at += 1
            if not self.next():
                raise self.fault()
            found.append(self.next())
            self.at += 1
        self.at += 1
        return ''.join(found)


def filter_of(words, everyday, relation):
    """The filter that these words form: one in parentheses, or pairs of a type and a text, to which the given relation applies."""
    if words[0].startswith('('):
        return Reader(words[0], everyday).whole()
    members = []
    for word, text in zip(words[::2], words[1::2]):
        kind = texts_named(word, everyday)
        if kind is None:
            raise unknown_tag(word)
        members.append(Base(text) if kind == 'base' else Comparison(kind, relation, text, tags_of_songs(everyday)))
    return All(members)


def found(songs, words, everyday, blind=False):
    """Those of these songs that the filter accepts. If `blind`, case is ignored, and pairs look for parts of texts."""
    it = filter_of(words, everyday, 'contains' if blind else '==')
    fold = str.casefold if blind else str
    return [song for song in songs if it.holds(song, fold)]


def is_filter(words):
    """Whether these can be the words of a filter, judged by their number."""
    if words and words[0].startswith('('):
        return len(words) == 1
    return len(words) >= 2 and len(words) % 2 == 0
