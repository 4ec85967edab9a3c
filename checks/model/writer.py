"""Writes random scripts from seeds: most lines are correct, and their order mostly makes sense.

The model runs the script while it is written, so that a line can name places, ids and jobs that exist. A script has a few topics. Some of its
lines are spoiled, and at its end questions show the state that is left."""
import random

from grammar import FORMS, LIKELY, ONLY_EVERYDAY, OPENINGS, SOUND, TOPICS
from script import Script
from values import FRAMES, SONGS, Values, quoted

# For each limit: how likely it is in a script with one of these topics (in others it is rare), and the range of its values.
LIMITS = {'max_queue': (0.1, ('queue', 'selections', 'everyday'), (1, 7)), 'max_version': (0.2, ('queue',), (1, 6)),
          'max_id': (0.07, ('queue',), (1, 9)), 'max_cut': (0.12, ('playing', 'modes', 'fades', 'partitions'), (1, 6)),
          'history': (0.1, tuple(TOPICS), (1, 3))}
MOST_LINES = 38
QUESTIONS = 5
BAD_LINES = ['!', '! ', '!want', '! want x', '! in nosuch want', '! turn 1 0 0', '! limit history 1', 'hello', '', ' 1 ping', '! gone 0']


class Writer:
    """Writes one script."""

    def __init__(self, seed, most_lines):
        self.rng = random.Random(seed)
        self.most_lines = most_lines
        self.script = Script()
        self.value = Values(self.rng, self.script)
        self.lines = []
        self.wants_everyday = self.chance(0.35)
        self.clients = self.pick(1, 1, 1, 2, 2, 3, 4)
        self.topics = self.some_topics(self.pick(1, 1, 2, 2, 3))
        self.counts = {}
        self.spoils = self.pick(0, 0, 0.02, 0.06)

    def chance(self, likely):
        return self.rng.random() < likely

    def pick(self, *choices):
        return self.rng.choice(choices)

    def some_topics(self, count):
        """So many topics, or fewer if one is drawn twice; with the everyday profile often one more that only this profile has."""
        drawn = [self.rng.choice(ONLY_EVERYDAY)] if self.wants_everyday and self.chance(0.7) else []
        topics = [topic for topic in TOPICS if self.wants_everyday or topic not in ONLY_EVERYDAY]
        drawn += self.rng.choices(topics, [LIKELY.get(topic, 1) for topic in topics], k=count)
        return list(dict.fromkeys(drawn))

    def write(self):
        """The bytes of the script."""
        self.open()
        longest = self.most_lines - QUESTIONS
        most = self.rng.randint(min(len(self.lines) + 6, longest), longest)
        while len(self.lines) < most:
            if self.script.daemon and self.chance(self.step_chance()):
                self.write_step()
            else:
                self.write_line(self.speaker())
        self.ask()
        return ''.join(line + '\n' for line in self.lines).encode()

    def say(self, line):
        self.lines.append(line)
        self.script.printed(line.encode())

    # The opening.

    def open(self):
        for name, (likely, near, (least, greatest)) in LIMITS.items():
            if self.chance(0.03 if set(near).isdisjoint(self.topics) else likely):
                self.say('! limit %s %d' % (name, self.rng.randint(least, greatest)))
        if self.wants_everyday:
            if self.chance(0.05):
                self.write_song()
            self.say('! limit everyday 1')
        for _ in range(self.pick(2, 3, 3, 4, 5)):
            self.write_song()
        for topic in self.topics:
            for form in OPENINGS[topic]:
                self.value.me = self.rng.randint(1, min(self.clients, 2))
                self.say_words(self.value.me, self.words_of(form))

    def write_song(self):
        tags = [self.value.SONG_TAG() for _ in range(self.pick(0, 1, 2, 2, 3, *((4, 4, 6) if self.script.everyday else ())))]
        new = [uri for uri in SONGS if uri not in self.script.songs or self.chance(0.03)]
        if set(self.topics) <= {*SOUND, 'messages', 'idle'}:
            tags = []
        words = [self.rng.choice(new or SONGS), str(self.pick(*FRAMES)), *tags]
        self.say('! song ' + ' '.join(quoted(self.rng, word) for word in words))

    # Lines of clients.

    def words_of(self, form):
        """The words of a form, with random values; no words if the whole line is left out."""
        words = []
        if form.startswith('? '):
            form = '' if self.chance(0.6) else form[2:]
        for word in form.split():
            if word.endswith('?') and self.chance(0.6):
                continue
            choice = self.rng.choice(word.rstrip('?').split('|')) if len(word) > 1 else word
            drawn = getattr(self.value, choice)() if choice.isupper() and hasattr(self.value, choice) else choice
            words += [drawn] if isinstance(drawn, str) else drawn
        return ['' if word == '""' else word for word in words]

    def speaker(self):
        """A client; one that waits in `idle` is seldom chosen."""
        speaker = self.rng.randint(1, self.clients)
        client = self.script.daemon.world.clients.get(speaker) if self.script.daemon else None
        return self.rng.randint(1, self.clients) if client and client.waits and self.chance(0.8) else speaker

    def write_line(self, speaker):
        self.value.me = speaker
        opened = self.script.lists.get(speaker)
        client = self.script.daemon.world.clients.get(speaker) if self.script.daemon else None
        if opened and self.chance(0.3):
            words = ['command_list_end']
        elif not opened and self.chance(0.05):
            words = [self.pick('command_list_begin', 'command_list_ok_begin', 'command_list_ok_begin', 'command_list_end')]
        elif client and client.waits and not opened and self.chance(0.75):
            words = [self.pick('noidle', 'noidle', 'noidle', 'noidle', 'noidle', 'noidle', 'command_list_begin')]
        elif client and client.waits and opened and self.chance(0.3):
            words = ['noidle']
        elif self.clients > 1 and self.chance(0.08):
            words = self.words_of('idle SUBSYSTEM? SUBSYSTEM?')
        else:
            words = self.words_of(self.rng.choice(FORMS[self.rng.choice(self.topics)]))
        self.say_words(speaker, words)

    def say_words(self, speaker, words):
        if words and self.chance(self.spoils):
            words = self.spoiled(words)
        line = ' '.join(quoted(self.rng, word) if place else word for place, word in enumerate(words))
        if self.chance(self.spoils / 2):
            line = self.value.broken(line)
        if line or self.chance(0.1):
            self.say('%d %s' % (speaker, line) if line else str(speaker))

    def spoiled(self, words):
        """The words with an odd one added, with one removed, or with one replaced by an odd one."""
        at = self.rng.randrange(len(words))
        odd = self.value.ODD()
        return self.pick(words + [odd], words[:at] + words[at + 1:], words[:at] + [odd] + words[at + 1:])

    # Steps.

    def step_chance(self):
        playing = any(partition.player.state == 'play' for partition in self.script.daemon.world.partitions.values())
        return 0.5 if playing and not set(SOUND).isdisjoint(self.topics) else 0.07

    def write_step(self):
        if self.chance(0.02):
            return self.say(self.rng.choice(BAD_LINES))
        if self.chance(0.12):
            return self.write_other_step()
        partitions = self.script.daemon.world.partitions
        name = self.rng.choice([name for name in partitions if partitions[name].player.state == 'play'] or list(partitions))
        front = '! ' if name == 'default' and self.chance(0.9) else '! in %s ' % name
        return self.say(front + self.decoder_step(name, partitions[name].player))

    def decoder_step(self, name, player):
        """Mostly the step that comes next: a `want`, or a `have` for the open job; sometimes a `have` for a job that is no longer wanted."""
        job = player.job
        if job is None and player.jobs and self.chance(0.25):
            return self.pick('have %d %d' % (player.jobs, self.counts.get(name, 4)), 'failed %d' % player.jobs)
        if job is None or self.chance(0.15 if job.open else 0.9):
            return 'want'
        self.counts[name] = job.count
        if self.chance(0.1):
            return 'failed %d%s' % (job.number, self.pick('', ' partner', ' partner'))
        number = job.number if self.chance(0.95) else max(0, job.number - 1)
        frames = job.count if self.chance(0.65) else self.pick(0, job.count - 1, job.count + 1)
        return 'have %d %d' % (number, max(0, frames))

    def write_other_step(self):
        kind = self.pick('turn', 'turn', 'scanned', 'song', 'gone', 'window')
        if kind == 'turn':
            self.say('! turn 0 %d %d%s' % (self.rng.randrange(5), self.rng.randrange(5), ' failed' if self.chance(0.08) else ''))
        elif kind == 'song':
            self.write_song()
        elif kind == 'gone':
            self.say('! gone %d' % self.rng.randint(1, self.clients))
        else:
            self.say('! ' + kind)

    # The end.

    def ask(self):
        """Questions that show the state that is left, from one client or two."""
        asked = self.rng.sample(range(1, self.clients + 1), min(2, self.clients))
        me = self.value.me = asked[0]
        if me in self.script.lists:
            self.say('%d command_list_end' % me)
        self.say('%d status' % me)
        self.say('%d plchangesposid %s' % (me, self.value.VERSION()))
        self.say('%d idle' % asked[-1])
        self.say(self.pick('! window', '! turn 0 0 0', '! want', '%d listplaylists' % me))


def script_of(seed, most_lines=MOST_LINES):
    """The script of a seed; it is always the same."""
    return Writer(seed, most_lines).write()
