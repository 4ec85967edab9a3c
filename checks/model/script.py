"""A script: lines of clients, each with the client's number, and steps in place of the scanner, the decoder and the output."""
from daemon import Daemon
from library import Song, tag_named, tag_text, tags_of_songs
from player import LimitReached
from words import Ack, GREATEST_NUMBER, number, one_of, words_of
from world import GREATEST

LONGEST_LINE = 16384
LARGEST_LIST = 2097152
LONGEST_URI = 1024
MOST_SONGS = 100000
LIST_BEGINS = {'command_list_begin': False, 'command_list_ok_begin': True}


class Bad(Exception):
    """A line of the script that is neither a client's line nor a step."""


class OpenList:
    """The lines of a command list that has not ended yet."""

    def __init__(self, says_ok):
        self.says_ok = says_ok
        self.lines = []
        self.size = 0

    def collect(self, line):
        self.lines.append(line)
        self.size += len(line.encode()) + 1


class Script:
    def __init__(self):
        self.limits = dict(GREATEST)
        self.everyday = False
        self.songs = {}
        self.daemon = None
        self.lists = {}

    def run(self, text):
        """What is printed for a whole script, given as bytes."""
        printed = []
        *lines, rest = text.split(b'\n')
        for line in lines:
            if len(line) > LONGEST_LINE:
                return b''.join(printed) + b'! bad\n'
            printed.append(self.printed(line[:-1] if line.endswith(b'\r') else line))
        if len(rest) > LONGEST_LINE:
            printed.append(b'! bad\n')
        return b''.join(printed)

    def printed(self, line):
        try:
            lines = self.line(line.decode())
        except (Bad, Ack, UnicodeDecodeError):
            lines = ['! bad']
        return ''.join(it + '\n' for it in lines).encode()

    def line(self, line):
        if line[:1] in set('123456789') and line[1:2] in ('', ' '):
            return self.client_line(int(line[0]), line[2:])
        if not line.startswith('! '):
            raise Bad()
        words = words_of(line[2:])
        if not words:
            raise Bad()
        return self.step(words)

    # Lines of clients.

    def client_line(self, number_of_client, line):
        if self.daemon is None:
            self.daemon = Daemon(self.limits, self.everyday, self.songs.values())
        front = []
        if number_of_client not in self.daemon.world.clients:
            self.lists.pop(number_of_client, None)
            self.daemon.connect(number_of_client)
            front = ['%d OK MPD 0.23.0' % number_of_client]
        lines, notices = self.said(number_of_client, line)
        return front + ['%d %s' % (number_of_client, it) for it in lines] + notice_lines(notices)

    def said(self, speaker, line):
        """The lines of the answer, and the notices to other clients."""
        word = line.strip(' \t')
        opened = self.lists.get(speaker)
        if opened is None and word in LIST_BEGINS:
            self.lists[speaker] = OpenList(LIST_BEGINS[word])
            return [], {}
        if opened is None:
            answer, notices = self.daemon.line(speaker, line)
            return answer.lines + answer.ending(), notices
        if word == 'command_list_end':
            del self.lists[speaker]
            return self.run_list(speaker, opened)
        opened.collect(line)
        if opened.size > LARGEST_LIST:
            del self.lists[speaker]
            _, notices = self.daemon.disconnect(speaker)
            return ['closed'], notices
        return [], {}

    def run_list(self, speaker, opened):
        """Runs the lines, up to the first that is refused or that closes the client's connection."""
        lines, notices = [], {}
        for place, line in enumerate(opened.lines):
            answer, told = self.daemon.line(speaker, line, in_list=True)
            notices.update(told)
            lines += answer.lines
            if answer.ack or answer.closed:
                return lines + answer.ending(place), notices
            if opened.says_ok:
                lines.append('list_OK')
        return lines + ['OK'], notices

    # Steps.

    def step(self, words):
        name, *arguments = words
        if name == 'song':
            return self.collect_song(*self.at_least(arguments, 2))
        if name == 'limit':
            return self.set_limit(*self.exactly(arguments, 2))
        if self.daemon is None:
            raise Bad()
        if name == 'in' and arguments[1:] and arguments[1] in ('want', 'have', 'failed') and arguments[0] in self.daemon.world.partitions:
            return self.decoder_step(arguments[0], arguments[1], arguments[2:])
        if name in ('want', 'have', 'failed'):
            return self.decoder_step('default', name, arguments)
        steps = {'gone': self.gone, 'scanned': self.scanned, 'turn': self.turn, 'window': self.show_window}
        if name not in steps:
            raise Bad()
        return steps[name](arguments)

    @staticmethod
    def exactly(arguments, count, most=None):
        if not count <= len(arguments) <= (most or count):
            raise Bad()
        return arguments

    @staticmethod
    def at_least(arguments, count):
        if len(arguments) < count:
            raise Bad()
        return arguments

    def collect_song(self, uri, frames, *values):
        if not 1 <= len(uri.encode()) <= LONGEST_URI or uri in self.songs or number(frames) == 0 or len(self.songs) == MOST_SONGS:
            raise Bad()
        known, tags = tags_of_songs(self.everyday), {}
        for value in values:
            name, equals, text = value.partition('=')
            tag = tag_named(name, known)
            if not equals or tag is None:
                raise Bad()
            if tag_text(text) is not None:
                tags.setdefault(tag, tag_text(text))
        self.songs[uri] = Song(uri, number(frames), tuple((tag, tags[tag]) for tag in known if tag in tags))
        return []

    def set_limit(self, name, value):
        greatest = min(GREATEST.get(name, 1), GREATEST_NUMBER)
        if self.daemon is not None or name not in (*GREATEST, 'everyday') or not 1 <= number(value) <= greatest:
            raise Bad()
        if name == 'everyday':
            self.everyday = True
        else:
            self.limits[name] = number(value)
        return []

    def printed_step(self, act):
        """Runs a step as one event, and returns the line that `act` gives, followed by the notices."""
        try:
            line, notices = self.daemon.event(act)
        except LimitReached:
            return ['! refused player limit reached']
        return ([line] if line else []) + notice_lines(notices)

    def decoder_step(self, partition, name, arguments):
        def player(world):
            return world.partitions[partition].player

        if name == 'want':
            self.exactly(arguments, 0)
            return self.printed_step(lambda world: wanted_line(player(world), world.outputs_of(partition)))
        if name == 'have':
            job, frames = map(number, self.exactly(arguments, 2))
            return self.printed_step(lambda world: fed_line(player(world).have(job, frames)))
        self.exactly(arguments, 1, 2)
        job = number(arguments[0])
        for word in arguments[1:]:
            one_of('partner')(word)
        return self.printed_step(lambda world: player(world).failed(job, len(arguments) == 2) or '! ok')

    def gone(self, arguments):
        client = number(*self.exactly(arguments, 1))
        if not 1 <= client <= 9:
            raise Bad()
        self.lists.pop(client, None)
        return notice_lines(self.daemon.disconnect(client)[1])

    def scanned(self, arguments):
        self.exactly(arguments, 0)
        songs = list(self.songs.values())

        def act(world):
            if world.scan is None:
                return '! none'
            world.scan = None
            world.library = type(world.library)(songs)
            return '! ok'
        return self.printed_step(act)

    def turn(self, arguments):
        output, _, _ = map(number, self.exactly(arguments, 3, 4)[:3])
        for word in arguments[3:]:
            one_of('failed')(word)
        if output != 0:
            raise Bad()

        def act(world):
            turned = world.outputs[0]
            if len(arguments) == 4:
                turned.enabled, turned.has_failed = False, True
            player = world.partitions[turned.partition].player
            moved = ' moved %d' % turned.moves if turned.moves else ''
            return '! live %d %d %d%s' % (player.cuts, turned.enabled, player.state == 'pause', moved)
        return self.printed_step(act)

    def show_window(self, arguments):
        self.exactly(arguments, 0)
        return ['! window %d %d' % (self.daemon.window, self.daemon.events)]


def notice_lines(notices):
    return ['%d %s' % (client, line) for client, lines in sorted(notices.items()) for line in (*lines, 'OK')]


def wanted_line(player, outputs):
    job = player.want() if any(output.enabled for output in outputs) else None
    if job is None:
        return '! none'
    fade = '' if job.partner is None else ' fade %d %d %d' % (job.partner, job.index, job.length)
    return '! job %d %d %d %d%s' % (job.number, job.id, job.start, job.count, fade)


def fed_line(fed):
    return '! stale' if fed is None else '! feed %d %d' % fed


def answer_of(text):
    """What the model prints for a script, given as bytes."""
    return Script().run(text)
