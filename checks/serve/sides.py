"""The parts of differences.py that deal with the daemons: the songs that both have, and how a transcript is sent to a daemon."""
import os
import re
import struct
import time

from daemon import ANSWER, Client, chunk, quoted, values, wave

RATE = 8000
INFO = {'Title': b'INAM', 'Artist': b'IART', 'Album': b'IPRD', 'Date': b'ICRD', 'Genre': b'IGNR', 'Comment': b'ICMT', 'Track': b'ITRK'}
ID3 = {'Title': b'TIT2', 'Album': b'TALB', 'AlbumArtist': b'TPE2', 'Track': b'TRCK', 'Disc': b'TPOS', 'Composer': b'TCOM'}
# the URI of each song, its seconds of silence, the tags of its list INFO, and if it has one, those of its ID3v2 tag
SONGS = [
    ('Bare.wav', 20, {}),
    ('Brief.wav', 0.2, {'Title': 'Fly'}),
    ('Isn\'t "5".wav', 20, {'Title': 'It\'s "five"'}),
    ('first/0.wav', 30, {'Title': 'Air', 'Artist': 'Ann', 'Album': 'First', 'Date': '2001', 'Genre': 'Folk'}),
    ('first/1.wav', 20, {'Title': 'Bee', 'Artist': 'Ann', 'Album': 'First', 'Date': '2001', 'Genre': 'Folk'}),
    ('second/2.wav', 20.5, {'Title': 'Sea', 'Artist': 'Bob', 'Album': 'Second', 'Date': '1999', 'Genre': 'Jazz'}),
    ('second/3.wav', 10, {'Title': 'Dew', 'Artist': 'Zoë', 'Album': 'Second', 'Genre': 'Jazz'}),
    ('third/inner/4.wav', 20, {'Title': 'Elm', 'Artist': 'bob'}),
    ('zoo/a.wav', 20, {}, {'Title': 'Yak', 'Album': 'Two', 'AlbumArtist': 'Various', 'Track': '10', 'Disc': '1', 'Composer': 'Eve'}),
    ('zoo/den/c.wav', 20, {}, {'Title': 'Emu', 'Album': 'Two', 'AlbumArtist': 'Various', 'Track': '9', 'Disc': '1'}),
    ('zoo/z.wav', 20, {'Title': 'Gnu', 'Album': 'One', 'Comment': 'live', 'Track': '1/2'}, {'Disc': '2'}),
]
WAIT = 0.2    # how many seconds a waiting client is given until it gets its notice
LATEST = 15   # how many seconds a transcript waits for a value of `status` at most

# What is not compared, since it changes from run to run, or since the two daemons count from different starts: a pattern, and its replacement.
VOLATILE = [
    (r'(elapsed|uptime|db_update|Last-Modified): .*', r'\1: T'),
    (r'time: \d+:', 'time: T:'),
    (r'updating_db: \d+', 'updating_db: N'),
]
LIST_BEGINS = (b'command_list_begin', b'command_list_ok_begin')
AT_THE_RESET = ['stop', 'clear', 'clearerror', 'setvol 100', 'crossfade 0', 'repeat 0', 'random 0', 'single 0', 'consume 0',
                'replay_gain_mode off', 'enableoutput 0', 'enableoutput 1', 'addid Bare.wav', 'clear', 'status']


def put_library(folder):
    """Writes the songs."""
    for uri, seconds, tags, *id3 in SONGS:
        path = os.path.join(folder, uri)
        os.makedirs(os.path.dirname(path), exist_ok=True)
        size = int(4 * RATE * seconds)
        head = wave([], 2, 16, RATE, tags=[(INFO[tag], text) for tag, text in tags.items()])
        with open(path, 'wb') as file:
            file.write(head[:-4] + struct.pack('<I', size) + bytes(size) + b''.join(chunk(b'id3 ', id3_tag(more)) for more in id3))


def id3_tag(tags):
    """An ID3v2.4 tag in UTF-8. Its sizes are so small that each fits into seven bits."""
    frames = b''.join(ID3[tag] + bytes([0, 0, 0, len(text.encode()) + 1, 0, 0, 3]) + text.encode() for tag, text in tags.items())
    return b'ID3\4\0\0\0\0' + bytes([len(frames) >> 7, len(frames) & 0x7f]) + frames


class Speaker(Client):
    """A client of a transcript, and whether it is in a command list, or waits in `idle`."""

    def __init__(self, port, owner):
        super().__init__(port)
        self.owner = owner
        self.is_listing = self.is_idle = self.is_closed = self.has_idle = False

    def told(self, seconds):
        """What it receives within so many seconds, up to the end of an answer."""
        self.socket.settimeout(seconds)
        lines = []
        try:
            while not lines or not (lines[-1] in ('OK', 'closed') or lines[-1].startswith('ACK ')):
                lines.append(self.line() or 'closed')
        except ConnectionError:
            lines.append('closed')
        except TimeoutError:
            pass
        self.is_closed = lines[-1:] == ['closed']
        self.is_idle = self.is_idle and not lines
        return lines

    def told_soon(self):
        """What it receives if perhaps nothing comes: first the daemon must have answered another client."""
        self.owner.must('ping')
        return self.told(WAIT)

    def say(self, data):
        """Sends a line, and returns the answer."""
        self.socket.sendall(data + b'\n')
        word = data.split(b' ')[0]
        if self.is_listing or data.strip() in LIST_BEGINS:
            return self.collect(word)
        if word == b'idle' or word == b'noidle' and not self.is_idle:
            self.is_idle = word == b'idle'
            return self.told_soon()
        return self.told(ANSWER)

    def collect(self, word):
        """Sends a line of a command list. If a list contains `idle`, MPD begins to wait."""
        self.is_listing, self.has_idle = word != b'command_list_end', self.has_idle and self.is_listing or word == b'idle'
        if self.is_listing:
            return self.told_soon() if self.is_idle else []
        self.is_idle = self.has_idle
        return self.told_soon() if self.has_idle else self.told(ANSWER)


class Side:
    """A daemon during a transcript. Ids and queue versions are counted from the beginning of the transcript: `$1` is the first id after it, and
    `%0` the version that the queue had then."""

    def __init__(self, server):
        self.port, self.clients, self.owner = server.port, {}, Client(server.port)

    def client(self, number):
        if number not in self.clients or self.clients[number].is_closed:
            self.clients[number] = Speaker(self.port, self.owner)
        return self.clients[number]

    def begin(self):
        """Puts the player back into the state in which it was started."""
        for client in [self.owner, *self.clients.values()]:
            client.close()
        # MPD disconnects a client that sends nothing for a minute, which is how long the other daemon may be busy.
        self.owner, self.clients, self.partition = Client(self.port), {}, 'default'
        for name in values(self.owner.must('listpartitions'), 'partition'):
            if name != 'default':
                self.take_back(name)
        lines = ['rm "%s"' % name for name in values(self.owner.must('listplaylists'), 'playlist')] + AT_THE_RESET
        told = self.owner.must('\n'.join(['command_list_begin', *lines, 'command_list_end']))
        self.first_id, self.first_version = int(values(told, 'Id')[0]), int(values(told, 'playlist')[0])

    def end(self):
        """Deletes the stickers, which `begin` does not do."""
        for uri, *_ in SONGS:
            self.owner.ask('sticker delete song ' + quoted(uri))

    def take_back(self, name):
        """Deletes a partition, after its outputs have been moved back."""
        end = time.monotonic() + ANSWER
        for output in ('out0', 'out1'):
            self.owner.must('moveoutput ' + output)
        # The daemon may not have noticed yet that its clients are gone.
        while self.owner.ask('delpartition ' + name)[-1] != 'OK':
            if time.monotonic() > end:
                raise AssertionError('the partition %s cannot be deleted' % name)
            time.sleep(0.02)

    def answers(self, lines):
        """The answer to each line of a transcript."""
        self.begin()
        told = [self.run(line) for line in lines]
        if any(' sticker ' in line for line in lines):
            self.end()
        return told

    def run(self, line):
        """Runs a line of a transcript: the lines of the answer, each after its client's number."""
        first, _, rest = line.partition(' ')
        if first == '!':
            return self.step(rest.split(' '))
        return self.say(int(first), self.filled(rest).encode())

    def filled(self, text):
        text = re.sub(r'\$(\d+)', lambda found: str(self.first_id + int(found.group(1))), text)
        text = re.sub(r'%(-?\d+)', lambda found: str(self.first_version + int(found.group(1))), text)
        return re.sub(r'\{(\d+)\*(.*?)\}', lambda found: int(found.group(1)) * found.group(2), text)

    def say(self, number, data):
        spoke = self.client(number)
        answer = ['%d %s' % (number, self.normal(line, data.startswith(b'stats'))) for line in spoke.say(data)]
        return answer + self.notices(number)

    def notices(self, speaker=0):
        """The notices to waiting clients, except the one that has just sent a line."""
        waiting = [number for number in sorted(self.clients) if number != speaker and self.clients[number].is_idle]
        if waiting:
            self.owner.must('ping')
            time.sleep(WAIT)
        return ['%d %s' % (number, line) for number in waiting for line in self.clients[number].told(0.01)]

    def step(self, words):
        """Runs a step. `wait KEY [VALUE...]` waits until `status` has this key, with one of these values, if there are any; `wait no KEY` waits
        until it does not have it. With `gone N` client N disconnects. With `bytes N HEX` client N sends a line of these bytes."""
        if words[0] == 'gone':
            self.clients.pop(int(words[1])).close()
            time.sleep(WAIT)
            return self.notices()
        if words[0] == 'bytes':
            return self.say(int(words[1]), bytes.fromhex(words[2]))
        if not self.becomes(*words[1:]):
            return ['! it never had %s' % ' '.join(words[1:])]
        return []

    def becomes(self, key, *wanted):
        end = time.monotonic() + LATEST
        while time.monotonic() < end:
            value = self.owner.value('status', wanted[0] if key == 'no' else key)
            if value is None if key == 'no' else value is not None and (not wanted or value in wanted):
                return True
            time.sleep(0.02)
        return False

    def normal(self, line, is_stats):
        """A line of an answer, in the form in which it is compared."""
        if line.startswith('partition: '):
            self.partition = line.partition(': ')[2]
        for pattern, plain in VOLATILE + ([('playtime: .*', 'playtime: T')] if is_stats else []):
            line = re.sub('^%s' % pattern, plain, line)
        line = re.sub(r'^((?:next)?songid|Id): (\d+)$', lambda found: '%s: $%d' % (found.group(1), int(found.group(2)) - self.first_id), line)
        since = self.first_version if self.partition == 'default' else 1
        return re.sub(r'^playlist: (\d+)$', lambda found: 'playlist: %%%d' % (int(found.group(1)) - since), line)
