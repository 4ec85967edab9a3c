"""The order in which entries are played: the modes, the ranks for random order, and what has been played in a random round."""
from generator import Generator


class Order:
    def __init__(self, seed):
        self.generator = Generator(seed)
        self.repeat = self.random = False
        self.single = self.consume = '0'
        self.ranks = {}
        self.played = []

    def added(self, entries):
        """Gives each added entry a random rank."""
        for entry in entries:
            self.ranks[entry.id] = self.generator.word()

    def left(self, entries):
        for entry in entries:
            del self.ranks[entry.id]
            if entry.id in self.played:
                self.played.remove(entry.id)

    def started(self, entry_id):
        if self.random:
            self.leave_round(entry_id)
            self.played.append(entry_id)

    def leave_round(self, entry_id):
        if entry_id in self.played:
            self.played.remove(entry_id)

    def turn_random(self, on, entries, current):
        if on and not self.random:
            self.added(entries)
            self.played = [] if current is None else [current]
        elif not on:
            self.played = []
        self.random = on

    def least_unplayed(self, entries):
        """The first entry that has not been played in this round, or None."""
        unplayed = [entry for entry in entries if entry.id not in self.played]
        return min(unplayed, key=self.sort_key, default=None)

    def sort_key(self, entry):
        return -entry.priority, self.ranks[entry.id], entry.id

    def renew(self, entries):
        """Begins a new round: nothing has been played, and each entry gets a new random rank."""
        self.played = []
        self.added(entries)

    def foreseen(self, entries, place):
        """The entry that comes next, if no new round is needed for that. Without random order it is the one at this place."""
        if self.random:
            return self.least_unplayed(entries)
        if place < len(entries):
            return entries[place]
        return entries[0] if self.repeat and entries else None

    def following(self, entries, place):
        """The entry that comes next, in a new round if the old one is over."""
        found = self.foreseen(entries, place)
        if found is None and self.random:
            self.renew(entries)
            if self.repeat:
                found = self.least_unplayed(entries)
        return found

    def first(self, entries):
        """The entry with which a stopped player begins that has no current song."""
        if not self.random:
            return entries[0]
        if self.least_unplayed(entries) is None:
            self.renew(entries)
        return self.least_unplayed(entries)

    def shuffle(self, queue, start, end):
        """Shuffles a part of a queue: from its last place down to its second, each entry is swapped with one that is not after it."""
        for place in range(end - 1, start, -1):
            queue.swap(place, start + self.generator.word() % (place - start + 1))
