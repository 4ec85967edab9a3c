"""The queue: its entries with their ids, and when each position was last changed.

Every change of the queue has a number, counted from 1. A slot (a position of the queue) remembers the number of the last change that affected
it, and all versions that clients see are computed from these numbers."""
from dataclasses import dataclass, replace

from library import Song, seconds
from words import FULL, Ack


@dataclass(frozen=True)
class Entry:
    id: int
    song: Song
    priority: int = 0


class Queue:
    def __init__(self, limits):
        self.limits = limits
        self.entries = []
        self.greatest_id = 0
        self.changes = 0
        self.last_change = {}

    # What is in the queue.

    def __len__(self):
        return len(self.entries)

    def place_of(self, entry_id):
        for place, entry in enumerate(self.entries):
            if entry.id == entry_id:
                return place
        return None

    def entry(self, entry_id):
        place = self.place_of(entry_id)
        return None if place is None else self.entries[place]

    def lines(self, place, shown):
        """The lines of the song at a place, as commands on the queue show them."""
        entry = self.entries[place]
        priority = ['Prio: %d' % entry.priority] if entry.priority else []
        return [*entry.song.lines(shown), 'Pos: %d' % place, 'Id: %d' % entry.id, *priority]

    # Changes.

    def room_for(self, count):
        """Refuses so many new entries if there is no room for them, or if the ids have run out."""
        if len(self.entries) + count > self.limits['max_queue']:
            raise Ack(FULL, 'playlist is full')
        if self.greatest_id + count > self.limits['max_id']:
            raise Ack(FULL, 'no more song ids')

    def insert(self, at, songs):
        """Inserts songs at a place, and returns the new entries."""
        added = [Entry(self.greatest_id + 1 + number, song) for number, song in enumerate(songs)]
        self.greatest_id += len(added)
        self.entries[at:at] = added
        return added

    def remove(self, start, end):
        gone = self.entries[start:end]
        del self.entries[start:end]
        return gone

    def move(self, start, end, to):
        moved = self.remove(start, end)
        self.entries[to:to] = moved

    def swap(self, one, other):
        self.entries[one], self.entries[other] = self.entries[other], self.entries[one]

    def give_priority(self, place, priority):
        self.entries[place] = replace(self.entries[place], priority=priority)

    # Versions.

    def note_changes(self, before):
        """Records what one event has changed; `before` are the entries as they were before it."""
        if before == self.entries:
            return
        self.changes += 1
        for place in range(max(len(before), len(self.entries))):
            if before[place:place + 1] != self.entries[place:place + 1]:
                self.last_change[place] = self.changes

    def version_of(self, change):
        return change % self.limits['max_version'] + 1

    @property
    def version(self):
        return self.version_of(self.changes)

    def changed_since(self, version):
        """The places of the slots that must be shown to a client that knows this version."""
        return [place for place in range(len(self.entries)) if self.is_shown(place, version)]

    def is_shown(self, place, version):
        if version > self.version:
            return True
        last = self.last_change[place]
        wrapped = self.changes - self.changes % self.limits['max_version']
        marked = wrapped > 0 and last <= wrapped
        return marked or self.version_of(last) > version


def span_of(entry):
    """The duration of an entry's song, in seconds."""
    return seconds(entry.song.milliseconds)
