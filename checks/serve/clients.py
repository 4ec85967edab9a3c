#!/usr/bin/env python3
"""Runs real clients with the daemon: mpc, python3-mpd, ncmpc and ncmpcpp (both in tmux), and with --everyday also Audio::MPD (in Perl), mpd-sima
and Cantata (in Xvfb, operated by xdotool); all are Debian's.

    checks/serve/clients.py [PROGRAM] [--everyday]

With --everyday the settings have `everyday = true`. For each step it prints what the client did, and whether the daemon then was in the state
that it should be in. All clients connect through a proxy in this script, which records the requests that the daemon refused; so it can tell if a
step fails only because of a command that the daemon leaves out on purpose. The exit status is 1 if a step fails that should work. Clients that
are not installed are named and left out.
"""
import os
import shutil
import signal
import socket
import subprocess
import sys
import tempfile
import threading
import time

sys.dont_write_bytecode = True

sys.path.append(os.path.dirname(os.path.dirname(os.path.abspath(__file__))))

from command_table import table
from daemon import Daemon, Pacer, Table, chunk, program_of, values, wave
from sides import id3_tag

# the commands that the daemon leaves out (see commands.txt), so that it refuses requests with them
MISSING = {name for name, _ in table().missing} | {'clearmounts'}
# the commands, and the forms of other commands, that exist only with `everyday = true`
EVERYDAY, EVERYDAY_FORMS = set(table().everyday_names()), ('list album', 'tagtypes ')
is_everyday = '--everyday' in sys.argv[1:]


class Proxy(threading.Thread):
    """Passes lines on between clients and the daemon, and records each request that was refused, with the answer."""

    def __init__(self, port):
        super().__init__(daemon=True)
        self.daemon_port, self.refused = port, []
        self.door = socket.create_server(('127.0.0.1', 0))
        self.port = self.door.getsockname()[1]
        self.start()

    def run(self):
        while True:
            client, _ = self.door.accept()
            threading.Thread(target=self.serve, args=(client,), daemon=True).start()

    def serve(self, client):
        server = socket.create_connection(('127.0.0.1', self.daemon_port))
        waiting = []
        threading.Thread(target=self.back, args=(server, client, waiting), daemon=True).start()
        try:
            for line in client.makefile('rb'):
                waiting.append(line.decode(errors='replace').strip())
                server.sendall(line)
        except OSError:
            pass
        self.shut(server)

    def back(self, server, client, waiting):
        try:
            for line in server.makefile('rb'):
                if line.startswith(b'ACK '):
                    self.refused.append((self.cause(line.decode(), waiting), line.decode().strip()))
                client.sendall(line)
        except OSError:
            pass
        self.shut(client)

    @staticmethod
    def cause(line, waiting):
        """The request that an ACK is about: in a command list the one at the place that the ACK names, otherwise the last one that names
        the command."""
        begins = [place for place, text in enumerate(waiting) if text.startswith('command_list')]
        place = int(line.partition('@')[2].partition(']')[0])
        if len(begins) > 1 and waiting[-1] == 'command_list_end' and begins[-2] + 1 + place < len(waiting):
            return waiting[begins[-2] + 1 + place]
        return next((text for text in reversed(waiting) if text.split(' ')[0].strip('"') in line), waiting[-1] if waiting else '')

    @staticmethod
    def shut(line):
        try:
            line.shutdown(socket.SHUT_RDWR)
        except OSError:
            pass

    def refusals(self):
        """The refusals since this was called the last time."""
        found, self.refused = self.refused, []
        return found


def is_left_out(request):
    request = request.replace('"', '')
    name = request.split(' ')[0]
    return name in MISSING or not is_everyday and (name in EVERYDAY or request.startswith(EVERYDAY_FORMS))


def named_in(output):
    """The command that a client's own message names as missing, if the daemon leaves it out."""
    name = output.partition('unknown command "')[2].partition('"')[0]
    return [name] if name and is_left_out(name) else []


class Steps:
    """The steps of the clients, which are printed as a table."""

    def __init__(self, table, daemon, proxy):
        self.table, self.proxy, self.client, self.before = table, proxy, daemon.client(), {}

    def step(self, client, what, works, output='', lacks=None):
        """Prints a step of a client. It may fail if the client has asked, in this step or earlier, for something that is left out, or if
        `status` lacks a field that is left out."""
        refusals = self.proxy.refusals()
        left_out = sorted({request for request, _ in refusals if is_left_out(request)} | set(named_in(output)))
        earlier = self.before.setdefault(client, set())
        if works:
            told = 'works' + (', although these were refused: ' + '; '.join(left_out[:2]) if left_out else '')
        elif left_out:
            told = 'FAILS, since this is left out: ' + '; '.join(left_out[:3])
        elif lacks and self.status(lacks) is None:
            told = 'FAILS, since this is left out: the field "%s" of status' % lacks
        elif earlier and not refusals:
            told = 'FAILS, after this was refused earlier: ' + '; '.join(sorted(earlier)[:3])
        else:
            told = 'FAILS: ' + ('; '.join('%s -> %s' % pair for pair in refusals) or repr(output[-100:]))
        self.table.row(client, what, told[:150], right=works or not told.startswith('FAILS: '))
        earlier.update(left_out)

    def status(self, key):
        return self.client.value('status', key)

    def becomes(self, key, *wanted):
        """Whether a field of `status` gets one of these values within a few seconds."""
        for _ in range(60):
            if self.status(key) in wanted:
                return True
            time.sleep(0.05)
        return False


def put_music(folder):
    """Two albums. By disc and track, where clients know these, the songs of each have the opposite order of their files; the album of two
    artists has one of its own. This stands in ID3v2 tags, which the base profile does not read."""
    songs = [('Air', 'Ann', 'First', {'Disc': '2', 'Track': '1'}), ('Bee', 'Ann', 'First', {'Disc': '1', 'Track': '2'}),
             ('Sea', 'Bob', 'Second', {'AlbumArtist': 'Various', 'Track': '10'}), ('Dew', 'Zoë', 'Second', {'AlbumArtist': 'Various', 'Track': '9/10'})]
    for number, (title, artist, album, tags) in enumerate(songs):
        below = os.path.join(folder, album)
        os.makedirs(below, exist_ok=True)
        frames = [((number * 37 + i) % 200,) for i in range(441_00 * 2)]
        info = [(b'INAM', title), (b'IART', artist), (b'IPRD', album), (b'ICRD', '2026'), (b'IGNR', 'Test')]
        with open(os.path.join(below, '%d.wav' % number), 'wb') as file:
            file.write(wave(frames * 10, 1, 8, tags=info) + chunk(b'id3 ', id3_tag(tags)))


def run_mpc(steps, port):
    """mpc: each step is one call, and checks what it printed, or the state of the daemon afterwards."""
    def mpc(*words):
        run = subprocess.run(['mpc', '-p', str(port), *words], capture_output=True, text=True, timeout=20)
        return run.returncode, run.stdout + run.stderr

    def step(words, holds, lacks=None):
        status, output = mpc(*words)
        steps.step('mpc', ' '.join(words), status == 0 and holds(output), output, lacks)

    step(['version'], lambda told: '0.23' in told)
    step(['status'], lambda told: 'volume:100%' in told.replace(' ', ''))
    step(['update', '--wait'], lambda told: 'MPD error' not in told)
    step(['listall'], lambda told: told.split() == ['First/0.wav', 'First/1.wav', 'Second/2.wav', 'Second/3.wav'])
    step(['ls'], lambda told: told.split() == ['First', 'Second'])
    step(['ls', 'First'], lambda told: '0.wav' in told or 'Air' in told)
    step(['search', 'title', 'ee'], lambda told: 'First/1.wav' in told)
    step(['find', 'artist', 'Ann'], lambda told: 'First/0.wav' in told)
    step(['search', '(title contains "EA")'], lambda told: 'Second/2.wav' in told)
    step(['list', 'artist'], lambda told: told.split() == ['Ann', 'Bob', 'Zoë'])
    step(['list', 'album', 'artist', 'Ann'], lambda told: told.split() == ['First'])
    step(['add', 'First'], lambda told: steps.becomes('playlistlength', '2'))
    step(['insert', 'Second/2.wav'], lambda told: steps.becomes('playlistlength', '3'))
    step(['findadd', 'title', 'Dew'], lambda told: steps.becomes('playlistlength', '4'))
    step(['playlist'], lambda told: 'Air' in told)
    step(['play', '2'], lambda told: steps.becomes('state', 'play') and steps.becomes('song', '1'))
    step(['current'], lambda told: steps.client.value('currentsong', 'Title') in told)
    step(['status'], lambda told: '/0:20' in told, lacks='time')
    step(['pause'], lambda told: steps.becomes('state', 'pause'))
    step(['toggle'], lambda told: steps.becomes('state', 'play'))
    step(['seek', '0:05'], lambda told: float(steps.status('elapsed')) >= 5)
    step(['seek', '+00:00:02'], lambda told: float(steps.status('elapsed')) >= 7)
    step(['next'], lambda told: steps.becomes('song', '2'))
    step(['prev'], lambda told: steps.becomes('song', '1'))
    step(['volume', '40'], lambda told: steps.becomes('volume', '40'))
    step(['volume', '+5'], lambda told: steps.becomes('volume', '45'))
    step(['repeat', 'on'], lambda told: steps.becomes('repeat', '1'))
    step(['random', 'on'], lambda told: steps.becomes('random', '1'))
    step(['single', 'once'], lambda told: steps.becomes('single', 'oneshot'))
    step(['consume', 'off'], lambda told: steps.becomes('consume', '0'))
    step(['crossfade', '2'], lambda told: steps.becomes('xfade', '2'))
    step(['move', '1', '3'], lambda told: 'error' not in told)
    step(['shuffle'], lambda told: 'error' not in told)
    step(['prio', '5', '1'], lambda told: 'error' not in told)
    step(['save', 'evening'], lambda told: steps.client.must('listplaylists') == ['playlist: evening'])
    step(['lsplaylists'], lambda told: 'evening' in told)
    step(['load', 'evening'], lambda told: steps.becomes('playlistlength', '8'))
    step(['rm', 'evening'], lambda told: steps.client.must('listplaylists') == [])
    step(['del', '8'], lambda told: steps.becomes('playlistlength', '7'))
    step(['crop'], lambda told: steps.becomes('playlistlength', '1'))
    step(['sticker', 'First/0.wav', 'set', 'rating', '5'], lambda told: 'error' not in told)
    step(['sticker', 'First/0.wav', 'get', 'rating'], lambda told: '5' in told)
    step(['outputs'], lambda told: 'out0' in told and 'enabled' in told)
    step(['disable', '1'], lambda told: 'disabled' in told)
    step(['enable', '1'], lambda told: 'enabled' in told)
    step(['channels'], lambda told: 'error' not in told)
    step(['stats'], lambda told: 'Artists' in told)
    if is_everyday:
        step(['list', 'album', 'group', 'albumartist'], lambda told: told.split() == ['Ann', 'First', 'Various', 'Second'])
        step(['find', 'albumartist', 'Various', 'track', '10'], lambda told: told.split() == ['Second/2.wav'])
        step(['-f', '%file% %disc% %track%', 'ls', 'First'], lambda told: told.split() == ['First/0.wav', '2', '1', 'First/1.wav', '1', '2'])
        step(['volume', '-5'], lambda told: steps.becomes('volume', '40'))
        step(['seek', '50%'], lambda told: 9 <= float(steps.status('elapsed')) <= 13)
        step(['seekthrough', '-00:00:03'], lambda told: 5 <= float(steps.status('elapsed')) <= 11)
        step(['searchadd', 'artist', 'ZOË'], lambda told: steps.becomes('playlistlength', '2'))
    step(['stop'], lambda told: steps.becomes('state', 'stop'))
    step(['clear'], lambda told: steps.becomes('playlistlength', '0'))
    waiting = subprocess.Popen(['mpc', '-p', str(port), 'idle'], stdout=subprocess.PIPE, text=True)
    time.sleep(0.3)
    start = time.monotonic()
    steps.client.must('setvol 33')
    told, _ = waiting.communicate(timeout=20)
    steps.step('mpc', 'idle (%.0f ms after a change)' % ((time.monotonic() - start) * 1e3), told.strip() == 'mixer', told)


LIBRARY = r'''
import sys, mpd
port, song = int(sys.argv[1]), 'First/0.wav'
client = mpd.MPDClient()
client.connect('127.0.0.1', port)
def step(what, call, holds):
    try:
        found = call()
        print(what, 'yes' if holds(found) else 'no', repr(found)[:120], sep='\t', flush=True)
    except mpd.MPDError as fault:
        print(what, 'no', fault, sep='\t', flush=True)
step('version', lambda: client.mpd_version, lambda found: found == '0.23.0')
step('add, addid', lambda: (client.add('Second'), client.addid(song, 0))[1], lambda found: int(found) > 0)
step('playlistinfo', client.playlistinfo, lambda found: [entry['pos'] for entry in found] == ['0', '1', '2'] and found[0]['title'] == 'Air')
step('play, status', lambda: (client.play(0), client.status())[1], lambda found: found['state'] == 'play')
step('seekcur', lambda: (client.seekcur('3'), client.status())[1], lambda found: float(found['elapsed']) >= 3)
step('a command list', lambda: (client.command_list_ok_begin(), client.ping(), client.status(), client.command_list_end())[3], lambda found: len(found) == 2)
step('find, search', lambda: client.search('artist', 'zoë'), lambda found: [entry['file'] for entry in found] == ['Second/3.wav'])
step('find by an expression', lambda: client.find("(Artist == 'Ann')"), lambda found: len(found) == 2)
step('list', lambda: client.list('album'), lambda found: [entry['album'] for entry in found] == ['First', 'Second'])
step('count', lambda: client.count('artist', 'Ann'), lambda found: found['songs'] == '2')
step('lsinfo', client.lsinfo, lambda found: [entry['directory'] for entry in found] == ['First', 'Second'])
step('plchanges', lambda: client.plchanges(0), lambda found: len(found) == 3)
step('save, listplaylistinfo', lambda: (client.save('x'), client.listplaylistinfo('x'))[1], lambda found: found[0]['title'] == 'Air')
step('rm', lambda: (client.rm('x'), client.listplaylists())[1], lambda found: found == [])
step('sticker_set, sticker_get', lambda: (client.sticker_set('song', song, 'n', 'v'), client.sticker_get('song', song, 'n'))[1], lambda found: found == 'v')
step('subscribe, sendmessage, readmessages', lambda: (client.subscribe('c'), client.sendmessage('c', 'hi'), client.readmessages())[2], lambda found: found == [{'channel': 'c', 'message': 'hi'}])
step('idle', lambda: (client.setvol(12), client.idle('mixer'))[1], lambda found: found == ['mixer'])
step('outputs', client.outputs, lambda found: found[0]['outputname'] == 'out0')
step('commands', client.commands, lambda found: 'playlistinfo' in found)
step('an error', lambda: client.play(99), lambda found: False)
step('stats', client.stats, lambda found: 'songs' in found)
if sys.argv[2:] == ['everyday']:
    files = lambda found: [entry['file'] for entry in found]
    step('uptime', client.stats, lambda found: found['uptime'].isdigit())
    step('list with groups', lambda: client.list('album', 'group', 'albumartist'),
         lambda found: [(entry['albumartist'], entry['album']) for entry in found] == [('Ann', 'First'), ('Various', 'Second')])
    step('find, sorted', lambda: client.find('album', 'Second', 'sort', 'title'), lambda found: files(found) == ['Second/3.wav', 'Second/2.wav'])
    step('find, sorted in falling order, with a window', lambda: client.find('album', 'Second', 'sort', '-title', 'window', '1:2'), lambda found: files(found) == ['Second/3.wav'])
    step('find, sorted by track', lambda: client.find('album', 'Second', 'sort', 'track'), lambda found: files(found) == ['Second/3.wav', 'Second/2.wav'])
    step('find, sorted by disc', lambda: client.find('album', 'First', 'sort', 'disc'), lambda found: files(found) == ['First/1.wav', 'First/0.wav'])
    step('add at a position', lambda: (client.clear(), client.add('First'), client.add('Second/2.wav', 1), client.playlistinfo())[3],
         lambda found: files(found) == ['First/0.wav', 'Second/2.wav', 'First/1.wav'])
    step('findadd at a position', lambda: (client.findadd('title', 'Dew', 'position', '0'), client.playlistinfo())[1],
         lambda found: files(found) == ['Second/3.wav', 'First/0.wav', 'Second/2.wav', 'First/1.wav'])
    step('playlistfind', lambda: client.playlistfind('artist', 'Ann'), lambda found: [entry['pos'] for entry in found] == ['1', '3'])
    step('playlistsearch', lambda: client.playlistsearch('title', 'EA'), lambda found: files(found) == ['Second/2.wav'])
    step('searchaddpl', lambda: (client.searchaddpl('y', 'artist', 'zoë'), client.listplaylist('y'), client.rm('y'))[1], lambda found: found == ['Second/3.wav'])
    step('an album, as phones ask for it', lambda: client.find('albumartist', 'Ann', 'album', 'First'), lambda found: len(found) == 2)
    step('an album of several artists', lambda: client.find('albumartist', 'Various', 'album', 'Second'),
         lambda found: [entry['artist'] for entry in found] == ['Bob', 'Zoë'])
step('stop, clear', lambda: (client.stop(), client.clear(), client.status())[2], lambda found: found['playlistlength'] == '0')
'''


def run_library(steps, port):
    """python3-mpd: runs in Debian's Python, for which the module is installed."""
    run = subprocess.run(['/usr/bin/python3', '-c', LIBRARY, str(port), *(['everyday'] if is_everyday else [])], capture_output=True, text=True, timeout=60)
    for line in run.stdout.splitlines():
        what, works, told = line.split('\t', 2)
        if what == 'an error':
            steps.step('python3-mpd', 'a refused command raises an error', works == 'no' and 'bad song index' in told, told)
        else:
            steps.step('python3-mpd', what, works == 'yes', told)
    steps.step('python3-mpd', 'all steps have been run', run.returncode == 0, run.stderr)


AUDIO_MPD = r'''
use strict; use warnings; use Audio::MPD;
my $client = Audio::MPD->new(host => '127.0.0.1', port => shift);
sub step { my ($what, $works, $told) = @_; print join("\t", $what, $works ? 'yes' : 'no', $told), "\n"; }
step('version', $client->version eq '0.23.0', $client->version);
my $stats = $client->stats;
step('stats, with the uptime', $stats->uptime =~ /^\d+$/ && $stats->songs == 4, $stats->uptime . ' ' . $stats->songs);
$client->playlist->clear; $client->playlist->add('First/0.wav'); $client->play(0);
step('add, play, status', $client->status->state eq 'play', $client->status->state);
step('current', $client->current->title eq 'Air', $client->current->title);
my @songs = $client->collection->all_songs;
step('all songs', @songs == 4, scalar(@songs));
$client->stop; $client->playlist->clear;
step('stop, clear', $client->status->playlistlength == 0, $client->status->playlistlength);
'''


def run_audio_mpd(steps, port):
    """Audio::MPD, a library for Perl (libaudio-mpd-perl), which ends if `stats` has no `uptime`."""
    run = subprocess.run(['perl', '-e', AUDIO_MPD, str(port)], capture_output=True, text=True, timeout=60)
    for line in run.stdout.splitlines():
        what, works, told = line.split('\t', 2)
        steps.step('Audio::MPD', what, works == 'yes', told)
    steps.step('Audio::MPD', 'all steps have been run', run.returncode == 0, run.stderr)


class Screen:
    """A program on a terminal, in tmux."""

    def __init__(self, name, words, folder):
        self.socket = os.path.join(folder, name + '.tmux')
        self.tmux('-f', '/dev/null', 'new-session', '-d', '-s', name, '-x', '110', '-y', '30', ' '.join(words))
        time.sleep(1.5)

    def tmux(self, *words):
        return subprocess.run(['tmux', '-S', self.socket, *words], capture_output=True, text=True).stdout

    def press(self, *keys):
        for key in keys:
            self.tmux('send-keys', key)
            time.sleep(0.3)

    def shows(self, *texts):
        """Whether the screen shows all these texts within a few seconds."""
        for _ in range(30):
            self.text = self.tmux('capture-pane', '-p')
            if all(text in self.text for text in texts):
                return True
            time.sleep(0.1)
        return False

    def end(self):
        self.tmux('kill-server')


def play_by_keys(steps, screen, name, pause):
    """Plays the queue by keys; `pause` is the key that pauses."""
    steps.step(name, 'connects and shows the queue', screen.shows('Air', 'Bee'), screen.text)
    screen.press('Enter')
    steps.step(name, 'plays', steps.becomes('state', 'play'), screen.text)
    screen.press(pause)
    steps.step(name, 'pauses', steps.becomes('state', 'pause'), screen.text)
    screen.press(pause, '>')
    steps.step(name, 'the next song', steps.becomes('song', '1'), screen.text)
    before = steps.status('volume')
    screen.press('-')
    steps.step(name, 'the volume', steps.status('volume') != before, screen.text)


def add_by_keys(steps, screen, name, browse, back):
    """Adds a folder; `browse` is the key that shows the library, and `back` the one that shows the queue."""
    screen.press(browse)
    steps.step(name, 'browses', screen.shows('First', 'Second'), screen.text)
    screen.press('Down', 'Space')
    steps.step(name, 'adds a folder', steps.becomes('playlistlength', '4'), screen.text)
    steps.client.must('add Second/2.wav')
    screen.press(back)
    steps.step(name, "hears of another client's change", screen.shows('Sea'), screen.text)


def save_by_keys(steps, screen, name, playlist):
    """Types the name under which the queue is to be saved, and stops."""
    screen.press(*playlist, 'Enter')
    time.sleep(0.5)
    steps.step(name, 'saves the queue', 'playlist: ' + playlist in steps.client.must('listplaylists'), screen.text)
    screen.press('s')
    steps.step(name, 'stops', steps.becomes('state', 'stop'), screen.text)


def run_ncmpc(steps, port, folder):
    steps.client.must('clear')
    steps.client.must('add First')
    screen = Screen('ncmpc', ['env', 'TERM=screen', 'HOME=' + folder, 'LANG=C.UTF-8', 'ncmpc', '-h', '127.0.0.1', '-p', str(port)], folder)
    try:
        play_by_keys(steps, screen, 'ncmpc', 'P')
        before = float(steps.status('elapsed') or 0)
        # each key seeks by a second
        screen.press('f', 'f', 'f', 'f')
        time.sleep(1)
        steps.step('ncmpc', 'seeks', float(steps.status('elapsed') or 0) >= before + 4, screen.text, lacks='time')
        add_by_keys(steps, screen, 'ncmpc', '3', '2')
        screen.press('S')
        save_by_keys(steps, screen, 'ncmpc', 'night')
    finally:
        screen.end()


def run_partitions(steps, port, folder):
    """Two queues: ncmpc makes a partition on its outputs screen and switches to it; mpc, which does not know partitions, stays in the first."""
    steps.client.must('clear')
    steps.client.must('add First')
    screen = Screen('rooms', ['env', 'TERM=screen', 'HOME=' + folder, 'LANG=C.UTF-8', 'ncmpc', '-h', '127.0.0.1', '-p', str(port)], folder)
    try:
        screen.press('8')
        steps.step('ncmpc', 'shows outputs and partitions', screen.shows('out0', 'Create new partition'), screen.text)
        screen.press('End', 'Enter', *'upstairs', 'Enter')
        made = screen.shows('upstairs') and 'partition: upstairs' in steps.client.must('listpartitions')
        steps.step('ncmpc', 'makes a partition', made, screen.text)
        screen.press('End', 'Up', 'Enter', '2')
        steps.step('ncmpc', 'switches to it, and its queue is empty', not screen.shows('Air'), screen.text)
        screen.press('3')
        screen.shows('First', 'Second')
        screen.press('Down', 'Space', '2')
        steps.step('ncmpc', 'adds a folder there', screen.shows('Sea') and steps.status('playlistlength') == '2', screen.text)
        shown = subprocess.run(['mpc', '-h', '127.0.0.1', '-p', str(port), 'playlist'], capture_output=True, text=True).stdout
        steps.step('mpc', 'shows the first queue', 'Air' in shown and 'Sea' not in shown, shown)
    finally:
        screen.end()


def run_ncmpcpp(steps, port, folder):
    steps.client.must('clear')
    steps.client.must('add First')
    config = os.path.join(folder, 'ncmpcpp')
    os.makedirs(config, exist_ok=True)
    primary = 'album_artist' if is_everyday else 'artist'
    with open(os.path.join(config, 'config'), 'w') as file:
        file.write('ncmpcpp_directory = %s\nlyrics_directory = %s\nmpd_crossfade_time = 2\nmedia_library_primary_tag = %s\n' % (config, config, primary))
    words = ['env', 'TERM=screen', 'HOME=' + folder, 'LANG=C.UTF-8', 'ncmpcpp', '-q', '-h', '127.0.0.1', '-p', str(port), '-c', os.path.join(config, 'config')]
    screen = Screen('ncmpcpp', words, folder)
    try:
        play_by_keys(steps, screen, 'ncmpcpp', 'p')
        screen.press('f', 'f', 'f', 'f', 'f')
        time.sleep(1)
        steps.step('ncmpcpp', 'seeks', float(steps.status('elapsed') or 0) >= 6, screen.text)
        add_by_keys(steps, screen, 'ncmpcpp', '2', '1')
        screen.press('4')
        if is_everyday:
            in_order = screen.shows('Ann', 'Various') and shows_in_order(screen, '02 - Bee', '01 - Air')
            steps.step('ncmpcpp', 'the media library, by disc', in_order, screen.text)
            screen.press('Down')
            steps.step('ncmpcpp', 'an album of several artists, by track', shows_in_order(screen, '09 - Dew', '10 - Sea'), screen.text)
        else:
            steps.step('ncmpcpp', 'the media library', screen.shows('Ann', 'Bob'), screen.text)
        screen.press('3')
        for _ in range(11):
            screen.press('Down')
        steps.step('ncmpcpp', 'the search screen', screen.shows('Search'), screen.text)
        screen.press('1', 'S')
        save_by_keys(steps, screen, 'ncmpcpp', 'dawn')
    finally:
        screen.end()


def shows_in_order(screen, *texts):
    """Whether the screen shows all these texts within a few seconds, each below the one before."""
    return screen.shows(*texts) and sorted(texts, key=screen.text.index) == list(texts)


def begin_anew(steps):
    for line in ('stop', 'clear', 'repeat 0', 'random 0', 'single 0', 'consume 0'):
        steps.client.must(line)


def run_sima(steps, port, folder):
    """mpd-sima: adds songs before the queue ends. Here it chooses artists at random, since its other ways ask servers on the network."""
    begin_anew(steps)
    steps.client.must('add First/0.wav')
    steps.client.must('play')
    own = os.path.join(folder, 'sima')
    config, log = os.path.join(own, 'config'), os.path.join(own, 'log')
    os.mkdir(own)
    with open(config, 'w') as file:
        file.write('[MPD]\nhost = 127.0.0.1\nport = %d\n[sima]\ninternal = Random\nqueue_length = 1\nhistory_duration = 0\nmusicbrainzid = no\n'
                   '[random]\nflavour = pure\ntrack_to_add = 1\n' % port)
    with open(log, 'w') as file:
        sima = subprocess.Popen(['mpd-sima', '-c', config, '--var-dir', own], stdout=file, stderr=file)

    def told():
        with open(log) as file:
            return file.read()
    try:
        # It takes seconds to start.
        added = any(steps.becomes('playlistlength', '2') for _ in range(6))
        steps.step('mpd-sima', 'adds a song', added, told())
        steps.client.must('next')
        steps.step('mpd-sima', 'adds another one', steps.becomes('playlistlength', '3'), told())
    finally:
        sima.kill()
        sima.wait()


def run_cantata(steps, port, folder):
    """Cantata: it shows its library, and a click on the first artist and then on `play` below the list plays that artist's songs, by disc."""
    begin_anew(steps)
    home, run = os.path.join(folder, 'cantata'), os.path.join(folder, 'run')
    os.makedirs(os.path.join(home, '.config', 'cantata'))
    os.makedirs(run, mode=0o700)
    with open(os.path.join(home, '.config', 'cantata', 'cantata.conf'), 'w') as file:
        file.write('[General]\nversion=2.5.0\npage=LibraryPage\n[Connection]\nhost=127.0.0.1\nport=%d\ndir=%s\n' % (port, folder))
    around = dict(os.environ, HOME=home, XDG_RUNTIME_DIR=run, DISPLAY=':97', QT_QPA_PLATFORM='xcb', LANG='C.UTF-8')
    screen = subprocess.Popen(['Xvfb', ':97', '-screen', '0', '1200x800x24'], stderr=subprocess.DEVNULL)
    time.sleep(2)
    # Without a message bus Cantata ends at once; with its own bus it cannot find another instance that runs already.
    words = ['dbus-run-session', '--', 'cantata']
    cantata = subprocess.Popen(words, env=around, stdout=subprocess.DEVNULL, stderr=subprocess.DEVNULL, start_new_session=True)

    def press(x, y):
        subprocess.run(['xdotool', 'mousemove', str(x), str(y), 'click', '1'], env=around, capture_output=True)
        time.sleep(1)

    try:
        time.sleep(10)
        steps.step('cantata', 'connects', cantata.poll() is None)
        press(140, 78)
        press(367, 670)
        steps.step('cantata', "plays its library's first artist", steps.becomes('playlistlength', '2') and steps.becomes('state', 'play'))
        steps.step('cantata', 'orders an album by disc and track', values(steps.client.must('playlistinfo'), 'Title') == ['Bee', 'Air'])
        press(55, 29)
        steps.step('cantata', 'pauses', steps.becomes('state', 'pause'))
        press(101, 29)
        steps.step('cantata', 'the next song', steps.becomes('song', '1'))
    finally:
        os.killpg(cantata.pid, signal.SIGKILL)
        screen.kill()


def main():
    words = [word for word in sys.argv[1:] if word != '--everyday']
    program = program_of(words[0] if words else None)
    table = Table('Real clients', 12, 38, 120)
    table.row('client', 'step', 'outcome')
    with tempfile.TemporaryDirectory() as folder:
        music = os.path.join(folder, 'music')
        put_music(music)
        with Pacer(os.path.join(folder, 'fifo')) as pacer, \
                Daemon(program, folder, music, [pacer.path], shelf=os.path.join(folder, 'shelf.db'), more='everyday = true' if is_everyday else '') as daemon:
            proxy = Proxy(daemon.port)
            steps = Steps(table, daemon, proxy)
            with_everyday = [(['/usr/share/perl5/Audio/MPD.pm'], lambda: run_audio_mpd(steps, proxy.port)),
                             (['mpd-sima'], lambda: run_sima(steps, proxy.port, folder)),
                             (['cantata', 'Xvfb', 'xdotool', 'dbus-run-session'], lambda: run_cantata(steps, proxy.port, folder))]
            for needed, run in [(['mpc'], lambda: run_mpc(steps, proxy.port)), (['/usr/lib/python3/dist-packages/mpd'], lambda: run_library(steps, proxy.port)),
                                (['ncmpc', 'tmux'], lambda: run_ncmpc(steps, proxy.port, folder)),
                                (['ncmpc', 'mpc', 'tmux'], lambda: run_partitions(steps, proxy.port, folder)),
                                (['ncmpcpp', 'tmux'], lambda: run_ncmpcpp(steps, proxy.port, folder)),
                                *(with_everyday if is_everyday else [])]:
                missing = [name for name in needed if not (shutil.which(name) or os.path.exists(name))]
                if missing:
                    table.row(os.path.basename(needed[0]), 'left out', 'not installed: %s' % ', '.join(missing))
                else:
                    run()
    return table.status()


if __name__ == '__main__':
    sys.exit(main())
